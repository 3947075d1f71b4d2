//! The library's C interface: calls on an opened volume.

use super::values::Values;
use crate::calls::Call;

/// What opening found, which is the library's own.
pub type Volume = [u64; 9];

unsafe extern "C" {
    fn cfb_open(image: *const u8, image_len: usize, work: *mut u32, work_len: usize, volume: *mut Volume) -> u32;
    fn cfb_close(image: *const u8, image_len: usize, work: *mut u32, work_len: usize, volume: *const Volume);
    fn cfb_opened_find(
        image: *const u8,
        image_len: usize,
        work: *const u32,
        work_len: usize,
        volume: *const Volume,
        path: *const u16,
        path_len: usize,
        entry: *mut u32,
        kind: *mut u32,
        size: *mut u64,
    ) -> u32;
    fn cfb_opened_read(
        image: *const u8,
        image_len: usize,
        work: *const u32,
        work_len: usize,
        volume: *const Volume,
        path: *const u16,
        path_len: usize,
        offset: u64,
        out: *mut u8,
        out_len: usize,
        count: *mut u64,
    ) -> u32;
    fn cfb_opened_overwrite(
        image: *mut u8,
        image_len: usize,
        work: *mut u32,
        work_len: usize,
        volume: *const Volume,
        path: *const u16,
        path_len: usize,
        offset: u64,
        bytes: *const u8,
        bytes_len: usize,
    ) -> u32;
    fn cfb_opened_set_len(
        image: *mut u8,
        image_len: usize,
        work: *mut u32,
        work_len: usize,
        volume: *const Volume,
        path: *const u16,
        path_len: usize,
        new_len: u64,
    ) -> u32;
    fn cfb_opened_list(
        image: *const u8,
        image_len: usize,
        work: *mut u32,
        work_len: usize,
        volume: *const Volume,
        out: *mut u8,
        out_len: usize,
        count: *mut u64,
    ) -> u32;
}

#[cfg(feature = "objects")]
unsafe extern "C" {
    fn cfb_opened_create_stream(
        image: *mut u8,
        image_len: usize,
        work: *const u32,
        work_len: usize,
        volume: *const Volume,
        path: *const u16,
        path_len: usize,
    ) -> u32;
    fn cfb_opened_create_storage(
        image: *mut u8,
        image_len: usize,
        work: *const u32,
        work_len: usize,
        volume: *const Volume,
        path: *const u16,
        path_len: usize,
    ) -> u32;
    fn cfb_opened_remove(
        image: *mut u8,
        image_len: usize,
        work: *mut u32,
        work_len: usize,
        volume: *const Volume,
        path: *const u16,
        path_len: usize,
    ) -> u32;
}

#[cfg(feature = "paging")]
unsafe extern "C" {
    fn cfb_opened_read_at(
        image: *const u8,
        image_len: usize,
        work: *const u32,
        work_len: usize,
        volume: *const Volume,
        entry: u32,
        position: u64,
        out: *mut u8,
        out_len: usize,
        count: *mut u64,
    ) -> u32;
}

// All that is lent could be written to: what a call has to leave alone is compared behind it.

/// The library's answer; after 0 the volume is opened.
pub fn open(image: &mut [u8], work: &mut [u32], volume: &mut Volume) -> u32 {
    // A slice's pointer is not null, aligned, and good for its length.
    unsafe { cfb_open(image.as_mut_ptr(), image.len(), work.as_mut_ptr(), work.len(), volume) }
}

/// For a volume that is opened with these buffers, as the calls below.
pub fn close(image: &mut [u8], work: &mut [u32], volume: &mut Volume) {
    // A slice's pointer is not null, aligned, and good for its length.
    unsafe { cfb_close(image.as_mut_ptr(), image.len(), work.as_mut_ptr(), work.len(), volume) }
}

/// The library's answer, and the values that it wrote; None for a function that is not linked. The out buffer is the one
/// lent here, not the call's own.
pub fn opened_call(
    call: &Call,
    image: &mut [u8],
    work: &mut [u32],
    volume: &mut Volume,
    out: &mut [u8],
) -> Option<(u32, [u64; 3])> {
    let (image, image_len) = (image.as_mut_ptr(), image.len());
    let (work, work_len) = (work.as_mut_ptr(), work.len());
    let (out, out_len) = (out.as_mut_ptr(), out.len());
    let mut values = Values::noise();
    let Values { entry, kind, size, count, .. } = &mut values;
    // A slice's pointer is not null, aligned, and good for its length.
    let answer = match call {
        Call::Validate | Call::Format(_) | Call::Repair { .. } => panic!("no call on an opened volume"),
        Call::PulseSummary { .. } | Call::PulseRecord { .. } | Call::PulseAdd { .. } => {
            panic!("no call on an opened volume")
        }
        Call::Find { path } => unsafe {
            let (path, path_len) = (path.as_ptr(), path.len());
            cfb_opened_find(image, image_len, work, work_len, volume, path, path_len, entry, kind, size)
        },
        Call::Read { path, offset, .. } => unsafe {
            let (path, path_len) = (path.as_ptr(), path.len());
            cfb_opened_read(image, image_len, work, work_len, volume, path, path_len, *offset, out, out_len, count)
        },
        Call::List { .. } => unsafe { cfb_opened_list(image, image_len, work, work_len, volume, out, out_len, count) },
        Call::Overwrite { path, offset, bytes } => unsafe {
            let (path, path_len) = (path.as_ptr(), path.len());
            let (bytes, bytes_len) = (bytes.as_ptr(), bytes.len());
            cfb_opened_overwrite(image, image_len, work, work_len, volume, path, path_len, *offset, bytes, bytes_len)
        },
        Call::SetLength { path, length } => unsafe {
            let (path, path_len) = (path.as_ptr(), path.len());
            cfb_opened_set_len(image, image_len, work, work_len, volume, path, path_len, *length)
        },
        #[cfg(feature = "objects")]
        Call::CreateStream { path } => unsafe {
            cfb_opened_create_stream(image, image_len, work, work_len, volume, path.as_ptr(), path.len())
        },
        #[cfg(feature = "objects")]
        Call::CreateStorage { path } => unsafe {
            cfb_opened_create_storage(image, image_len, work, work_len, volume, path.as_ptr(), path.len())
        },
        #[cfg(feature = "objects")]
        Call::Remove { path } => unsafe {
            cfb_opened_remove(image, image_len, work, work_len, volume, path.as_ptr(), path.len())
        },
        #[cfg(feature = "paging")]
        Call::ReadAt { entry, position, .. } => unsafe {
            cfb_opened_read_at(image, image_len, work, work_len, volume, *entry, *position, out, out_len, count)
        },
        #[cfg(not(feature = "paging"))]
        _ => return None,
    };
    Some((answer, values.of(call)))
}
