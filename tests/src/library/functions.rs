//! The library's C interface: the plain calls, each of which looks at the whole image first.

use super::values::Values;
use crate::calls::Call;
#[cfg(feature = "fresh")]
use crate::calls::format::Fresh;

#[link(name = "cfb_c", kind = "static")]
unsafe extern "C" {
    fn cfb_validate(image: *const u8, image_len: usize, work: *mut u32, work_len: usize) -> u32;
    fn cfb_find(
        image: *const u8,
        image_len: usize,
        work: *mut u32,
        work_len: usize,
        path: *const u16,
        path_len: usize,
        entry: *mut u32,
        kind: *mut u32,
        size: *mut u64,
    ) -> u32;
    fn cfb_read(
        image: *const u8,
        image_len: usize,
        work: *mut u32,
        work_len: usize,
        path: *const u16,
        path_len: usize,
        offset: u64,
        out: *mut u8,
        out_len: usize,
        count: *mut u64,
    ) -> u32;
    fn cfb_list(
        image: *const u8,
        image_len: usize,
        work: *mut u32,
        work_len: usize,
        out: *mut u8,
        out_len: usize,
        count: *mut u64,
    ) -> u32;
}

#[cfg(feature = "edits")]
unsafe extern "C" {
    fn cfb_overwrite(
        image: *mut u8,
        image_len: usize,
        work: *mut u32,
        work_len: usize,
        path: *const u16,
        path_len: usize,
        offset: u64,
        bytes: *const u8,
        bytes_len: usize,
    ) -> u32;
    fn cfb_set_len(
        image: *mut u8,
        image_len: usize,
        work: *mut u32,
        work_len: usize,
        path: *const u16,
        path_len: usize,
        new_len: u64,
    ) -> u32;
}

#[cfg(feature = "objects")]
unsafe extern "C" {
    fn cfb_create_stream(
        image: *mut u8,
        image_len: usize,
        work: *mut u32,
        work_len: usize,
        path: *const u16,
        path_len: usize,
    ) -> u32;
    fn cfb_create_storage(
        image: *mut u8,
        image_len: usize,
        work: *mut u32,
        work_len: usize,
        path: *const u16,
        path_len: usize,
    ) -> u32;
    fn cfb_remove(
        image: *mut u8,
        image_len: usize,
        work: *mut u32,
        work_len: usize,
        path: *const u16,
        path_len: usize,
    ) -> u32;
}

#[cfg(feature = "fresh")]
unsafe extern "C" {
    fn cfb_format(
        image: *mut u8,
        image_len: usize,
        version: u32,
        sectors: u64,
        directory_sectors: u64,
        mini_fat_sectors: u64,
        mini_sectors: u64,
    ) -> u32;
}

#[cfg(feature = "repair")]
unsafe extern "C" {
    fn cfb_repair(
        image: *mut u8,
        image_len: usize,
        work: *mut u32,
        work_len: usize,
        spare: *mut u8,
        spare_len: usize,
        changed: *mut u64,
    ) -> u32;
}

#[cfg(feature = "paging")]
unsafe extern "C" {
    fn cfb_read_at(
        image: *const u8,
        image_len: usize,
        work: *mut u32,
        work_len: usize,
        entry: u32,
        position: u64,
        out: *mut u8,
        out_len: usize,
        count: *mut u64,
    ) -> u32;
}

#[cfg(feature = "pulse")]
unsafe extern "C" {
    fn pulse_summary(
        image: *const u8,
        image_len: usize,
        work: *mut u32,
        work_len: usize,
        path: *const u16,
        path_len: usize,
        count: *mut u32,
        total: *mut u64,
    ) -> u32;
    fn pulse_record(
        image: *const u8,
        image_len: usize,
        work: *mut u32,
        work_len: usize,
        path: *const u16,
        path_len: usize,
        number: u32,
        valve: *mut u16,
        ticks: *mut u32,
    ) -> u32;
    fn pulse_add(
        image: *mut u8,
        image_len: usize,
        work: *mut u32,
        work_len: usize,
        path: *const u16,
        path_len: usize,
        valve: u16,
        ticks: u32,
    ) -> u32;
}

/// The library's answer for an image that it may not change.
pub fn validate(image: &[u8], work: &mut [u32]) -> u32 {
    // A slice's pointer is not null, aligned, and good for its length.
    unsafe { cfb_validate(image.as_ptr(), image.len(), work.as_mut_ptr(), work.len()) }
}

/// The library's answer, and the values that it wrote; None for a function that is not linked. The out buffer, of
/// a repair the spare buffer, is the one lent here, not the call's own.
pub fn call(call: &Call, image: &mut [u8], work: &mut [u32], out: &mut [u8]) -> Option<(u32, [u64; 3])> {
    let (image, image_len) = (image.as_mut_ptr(), image.len());
    let (work, work_len) = (work.as_mut_ptr(), work.len());
    let (out, out_len) = (out.as_mut_ptr(), out.len());
    let mut values = Values::noise();
    let Values { entry, kind, size, count, .. } = &mut values;
    // A slice's pointer is not null, aligned, and good for its length.
    let answer = match call {
        Call::Validate => unsafe { cfb_validate(image, image_len, work, work_len) },
        Call::Find { path } => unsafe {
            let (path, path_len) = (path.as_ptr(), path.len());
            cfb_find(image, image_len, work, work_len, path, path_len, entry, kind, size)
        },
        Call::Read { path, offset, .. } => unsafe {
            let (path, path_len) = (path.as_ptr(), path.len());
            cfb_read(image, image_len, work, work_len, path, path_len, *offset, out, out_len, count)
        },
        Call::List { .. } => unsafe { cfb_list(image, image_len, work, work_len, out, out_len, count) },
        #[cfg(feature = "edits")]
        Call::Overwrite { path, offset, bytes } => unsafe {
            let (path, path_len) = (path.as_ptr(), path.len());
            let (bytes, bytes_len) = (bytes.as_ptr(), bytes.len());
            cfb_overwrite(image, image_len, work, work_len, path, path_len, *offset, bytes, bytes_len)
        },
        #[cfg(feature = "edits")]
        Call::SetLength { path, length } => unsafe {
            cfb_set_len(image, image_len, work, work_len, path.as_ptr(), path.len(), *length)
        },
        #[cfg(feature = "objects")]
        Call::CreateStream { path } => unsafe {
            cfb_create_stream(image, image_len, work, work_len, path.as_ptr(), path.len())
        },
        #[cfg(feature = "objects")]
        Call::CreateStorage { path } => unsafe {
            cfb_create_storage(image, image_len, work, work_len, path.as_ptr(), path.len())
        },
        #[cfg(feature = "objects")]
        Call::Remove { path } => unsafe { cfb_remove(image, image_len, work, work_len, path.as_ptr(), path.len()) },
        #[cfg(feature = "fresh")]
        Call::Format(Fresh { version, sectors, directory, mini_fat, minis }) => unsafe {
            cfb_format(image, image_len, *version, *sectors, *directory, *mini_fat, *minis)
        },
        #[cfg(feature = "repair")]
        Call::Repair { .. } => unsafe { cfb_repair(image, image_len, work, work_len, out, out_len, count) },
        #[cfg(feature = "paging")]
        Call::ReadAt { entry, position, .. } => unsafe {
            cfb_read_at(image, image_len, work, work_len, *entry, *position, out, out_len, count)
        },
        #[cfg(feature = "pulse")]
        Call::PulseSummary { path } => unsafe {
            let (path, path_len) = (path.as_ptr(), path.len());
            let Values { records, total, .. } = &mut values;
            pulse_summary(image, image_len, work, work_len, path, path_len, records, total)
        },
        #[cfg(feature = "pulse")]
        Call::PulseRecord { path, number } => unsafe {
            let (path, path_len) = (path.as_ptr(), path.len());
            let Values { valve, ticks, .. } = &mut values;
            pulse_record(image, image_len, work, work_len, path, path_len, *number, valve, ticks)
        },
        #[cfg(feature = "pulse")]
        Call::PulseAdd { path, pulse } => unsafe {
            let (path, path_len) = (path.as_ptr(), path.len());
            pulse_add(image, image_len, work, work_len, path, path_len, pulse.valve, pulse.ticks)
        },
        #[cfg(not(feature = "pulse"))]
        _ => return None,
    };
    Some((answer, values.of(call)))
}
