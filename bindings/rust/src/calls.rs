//! The C interface (include/cfb.h), called with slices. Only this module, `opened` and `pulse_calls` have unsafe code.
//!
//! The interface asks nothing of what a buffer holds. It asks three things of the pointers, and slices and references have
//! them all:
//! - Each is not null, is aligned, and points to as many elements as its length says. Of an empty slice the pointer is
//!   dangling but not null, which is enough: nothing is read or written through it.
//! - What a call writes (the work buffer, an out or spare buffer, the image of an edit, the values) overlaps nothing else:
//!   these are `&mut`. Where an image and a path are only read, they may overlap: nobody writes them during the call.
//! - It lives until the call ends. The library keeps no pointer.

#![allow(unsafe_code)]

use crate::Plan;

extern "C" {
    fn cfb_validate(image: *const u8, image_len: usize, work: *mut u32, work_len: usize) -> u32;
    fn cfb_find(
        image: *const u8,
        image_len: usize,
        work: *mut u32,
        work_len: usize,
        path: *const u16,
        path_len: usize,
        entry: *mut u32,
        kind: *mut u32,
        size: *mut u64,
    ) -> u32;
    fn cfb_read(
        image: *const u8,
        image_len: usize,
        work: *mut u32,
        work_len: usize,
        path: *const u16,
        path_len: usize,
        offset: u64,
        out: *mut u8,
        out_len: usize,
        count: *mut u64,
    ) -> u32;
    fn cfb_read_at(
        image: *const u8,
        image_len: usize,
        work: *mut u32,
        work_len: usize,
        entry: u32,
        position: u64,
        out: *mut u8,
        out_len: usize,
        count: *mut u64,
    ) -> u32;
    fn cfb_overwrite(
        image: *mut u8,
        image_len: usize,
        work: *mut u32,
        work_len: usize,
        path: *const u16,
        path_len: usize,
        offset: u64,
        bytes: *const u8,
        bytes_len: usize,
    ) -> u32;
    fn cfb_set_len(
        image: *mut u8,
        image_len: usize,
        work: *mut u32,
        work_len: usize,
        path: *const u16,
        path_len: usize,
        new_len: u64,
    ) -> u32;
    fn cfb_create_stream(
        image: *mut u8,
        image_len: usize,
        work: *mut u32,
        work_len: usize,
        path: *const u16,
        path_len: usize,
    ) -> u32;
    fn cfb_create_storage(
        image: *mut u8,
        image_len: usize,
        work: *mut u32,
        work_len: usize,
        path: *const u16,
        path_len: usize,
    ) -> u32;
    fn cfb_remove(
        image: *mut u8,
        image_len: usize,
        work: *mut u32,
        work_len: usize,
        path: *const u16,
        path_len: usize,
    ) -> u32;
    fn cfb_list(
        image: *const u8,
        image_len: usize,
        work: *mut u32,
        work_len: usize,
        out: *mut u8,
        out_len: usize,
        count: *mut u64,
    ) -> u32;
    fn cfb_format(
        image: *mut u8,
        image_len: usize,
        version: u32,
        sectors: u64,
        directory_sectors: u64,
        mini_fat_sectors: u64,
        mini_sectors: u64,
    ) -> u32;
    fn cfb_repair(
        image: *mut u8,
        image_len: usize,
        work: *mut u32,
        work_len: usize,
        spare: *mut u8,
        spare_len: usize,
        changed: *mut u64,
    ) -> u32;
}

/// The answer.
pub fn validate(image: &[u8], work: &mut [u32]) -> u32 {
    // SAFETY: both are slices; only the work buffer is written, and it is lent to this call alone.
    unsafe { cfb_validate(image.as_ptr(), image.len(), work.as_mut_ptr(), work.len()) }
}

/// The answer, the entry's number, its type and its size.
pub fn find(image: &[u8], work: &mut [u32], path: &[u16]) -> (u32, u32, u32, u64) {
    let (image, image_len) = (image.as_ptr(), image.len());
    let (work, work_len) = (work.as_mut_ptr(), work.len());
    let (path, path_len) = (path.as_ptr(), path.len());
    let (mut entry, mut kind, mut size) = (0, 0, 0);
    // SAFETY: slices, and three variables of this function for the values. Image and path are only read.
    let answer =
        unsafe { cfb_find(image, image_len, work, work_len, path, path_len, &mut entry, &mut kind, &mut size) };
    (answer, entry, kind, size)
}

/// The answer, and how many bytes were copied.
pub fn read(image: &[u8], work: &mut [u32], path: &[u16], offset: u64, out: &mut [u8]) -> (u32, u64) {
    let (image, image_len) = (image.as_ptr(), image.len());
    let (work, work_len) = (work.as_mut_ptr(), work.len());
    let (path, path_len) = (path.as_ptr(), path.len());
    let (out, out_len) = (out.as_mut_ptr(), out.len());
    let mut count = 0;
    // SAFETY: slices, and a variable of this function for the count. Image and path are only read. Any offset may be given.
    let answer =
        unsafe { cfb_read(image, image_len, work, work_len, path, path_len, offset, out, out_len, &mut count) };
    (answer, count)
}

/// The answer, and how many bytes were copied.
pub fn read_at(image: &[u8], work: &mut [u32], entry: u32, position: u64, out: &mut [u8]) -> (u32, u64) {
    let (image, image_len) = (image.as_ptr(), image.len());
    let (work, work_len) = (work.as_mut_ptr(), work.len());
    let (out, out_len) = (out.as_mut_ptr(), out.len());
    let mut count = 0;
    // SAFETY: slices, and a variable of this function for the count. The image is only read. Any numbers may be given.
    let answer = unsafe { cfb_read_at(image, image_len, work, work_len, entry, position, out, out_len, &mut count) };
    (answer, count)
}

/// The answer.
pub fn overwrite(image: &mut [u8], work: &mut [u32], path: &[u16], offset: u64, bytes: &[u8]) -> u32 {
    let (image, image_len) = (image.as_mut_ptr(), image.len());
    let (work, work_len) = (work.as_mut_ptr(), work.len());
    let (path, path_len) = (path.as_ptr(), path.len());
    let (bytes, bytes_len) = (bytes.as_ptr(), bytes.len());
    // SAFETY: slices; image and work buffer are written, and lent to this call alone. Any offset may be given.
    unsafe { cfb_overwrite(image, image_len, work, work_len, path, path_len, offset, bytes, bytes_len) }
}

/// The answer.
pub fn set_len(image: &mut [u8], work: &mut [u32], path: &[u16], new_len: u64) -> u32 {
    let (image, image_len) = (image.as_mut_ptr(), image.len());
    let (work, work_len) = (work.as_mut_ptr(), work.len());
    let (path, path_len) = (path.as_ptr(), path.len());
    // SAFETY: slices; image and work buffer are written, and lent to this call alone. Any length may be given.
    unsafe { cfb_set_len(image, image_len, work, work_len, path, path_len, new_len) }
}

/// The answer.
pub fn create_stream(image: &mut [u8], work: &mut [u32], path: &[u16]) -> u32 {
    let (image, image_len) = (image.as_mut_ptr(), image.len());
    let (work, work_len) = (work.as_mut_ptr(), work.len());
    // SAFETY: slices; image and work buffer are written, and lent to this call alone.
    unsafe { cfb_create_stream(image, image_len, work, work_len, path.as_ptr(), path.len()) }
}

/// The answer.
pub fn create_storage(image: &mut [u8], work: &mut [u32], path: &[u16]) -> u32 {
    let (image, image_len) = (image.as_mut_ptr(), image.len());
    let (work, work_len) = (work.as_mut_ptr(), work.len());
    // SAFETY: slices; image and work buffer are written, and lent to this call alone.
    unsafe { cfb_create_storage(image, image_len, work, work_len, path.as_ptr(), path.len()) }
}

/// The answer.
pub fn remove(image: &mut [u8], work: &mut [u32], path: &[u16]) -> u32 {
    let (image, image_len) = (image.as_mut_ptr(), image.len());
    let (work, work_len) = (work.as_mut_ptr(), work.len());
    // SAFETY: slices; image and work buffer are written, and lent to this call alone.
    unsafe { cfb_remove(image, image_len, work, work_len, path.as_ptr(), path.len()) }
}

/// The answer, and how many bytes were written.
pub fn list(image: &[u8], work: &mut [u32], out: &mut [u8]) -> (u32, u64) {
    let (image, image_len) = (image.as_ptr(), image.len());
    let (work, work_len) = (work.as_mut_ptr(), work.len());
    let (out, out_len) = (out.as_mut_ptr(), out.len());
    let mut count = 0;
    // SAFETY: slices, and a variable of this function for the count. The image is only read.
    let answer = unsafe { cfb_list(image, image_len, work, work_len, out, out_len, &mut count) };
    (answer, count)
}

/// The answer.
pub fn format(image: &mut [u8], plan: Plan) -> u32 {
    let (image, image_len) = (image.as_mut_ptr(), image.len());
    let Plan { version, sectors, directory_sectors, mini_fat_sectors, mini_sectors } = plan;
    // SAFETY: a slice, which is written and lent to this call alone. Any numbers may be given.
    unsafe { cfb_format(image, image_len, version, sectors, directory_sectors, mini_fat_sectors, mini_sectors) }
}

/// The answer, and how many cells and colours differ.
pub fn repair(image: &mut [u8], work: &mut [u32], spare: &mut [u8]) -> (u32, u64) {
    let (image, image_len) = (image.as_mut_ptr(), image.len());
    let (work, work_len) = (work.as_mut_ptr(), work.len());
    let (spare, spare_len) = (spare.as_mut_ptr(), spare.len());
    let mut changed = 0;
    // SAFETY: three slices, which are written and lent to this call alone, and a value.
    let answer = unsafe { cfb_repair(image, image_len, work, work_len, spare, spare_len, &mut changed) };
    (answer, changed)
}
