//! The calls on an opened volume (include/cfb_opened.h), called with slices. Beside this module only `calls` and
//! `pulse_calls` have unsafe code.
//!
//! Of the pointers the interface asks what `calls` says. Beyond that it has a duty: from `cfb_open` to `cfb_close` nobody else
//! writes to the image, to the work buffer or to what opening found, and every call is given these three. The types of this
//! module keep it:
//! - An [`OpenVolume`] is made only where `cfb_open` has answered 0, with what it was given then, and `cfb_close` is called
//!   when it is dropped.
//! - Meanwhile it holds the borrow of the work buffer, and of the image an exclusive or a shared one, so nobody outside can
//!   write to them. What opening found is its own.
//! - Its fields are private to this module, which lends them shared at most, so the rest of the crate cannot write to them
//!   or exchange one.
//! - A [`Shared`] borrows it, so no call that writes is made as long as there is one.
//!
//! One that is never dropped is never closed. That does no harm: the library has nothing to free, and what stands in the
//! work buffer then is of no meaning to anybody.

#![allow(unsafe_code)]

use std::ops::Deref;

use crate::answers::{answered, counted, found};
use crate::{Entry, Refusal};

/// What opening found. Only the library knows its meaning.
#[repr(C)]
struct Found {
    numbers: [u64; 9],
}

extern "C" {
    fn cfb_open(image: *const u8, image_len: usize, work: *mut u32, work_len: usize, volume: *mut Found) -> u32;
    fn cfb_close(image: *const u8, image_len: usize, work: *mut u32, work_len: usize, volume: *const Found);
    fn cfb_opened_find(
        image: *const u8,
        image_len: usize,
        work: *const u32,
        work_len: usize,
        volume: *const Found,
        path: *const u16,
        path_len: usize,
        entry: *mut u32,
        kind: *mut u32,
        size: *mut u64,
    ) -> u32;
    fn cfb_opened_read(
        image: *const u8,
        image_len: usize,
        work: *const u32,
        work_len: usize,
        volume: *const Found,
        path: *const u16,
        path_len: usize,
        offset: u64,
        out: *mut u8,
        out_len: usize,
        count: *mut u64,
    ) -> u32;
    fn cfb_opened_read_at(
        image: *const u8,
        image_len: usize,
        work: *const u32,
        work_len: usize,
        volume: *const Found,
        entry: u32,
        position: u64,
        out: *mut u8,
        out_len: usize,
        count: *mut u64,
    ) -> u32;
    fn cfb_opened_overwrite(
        image: *mut u8,
        image_len: usize,
        work: *mut u32,
        work_len: usize,
        volume: *const Found,
        path: *const u16,
        path_len: usize,
        offset: u64,
        bytes: *const u8,
        bytes_len: usize,
    ) -> u32;
    fn cfb_opened_set_len(
        image: *mut u8,
        image_len: usize,
        work: *mut u32,
        work_len: usize,
        volume: *const Found,
        path: *const u16,
        path_len: usize,
        new_len: u64,
    ) -> u32;
    fn cfb_opened_create_stream(
        image: *mut u8,
        image_len: usize,
        work: *const u32,
        work_len: usize,
        volume: *const Found,
        path: *const u16,
        path_len: usize,
    ) -> u32;
    fn cfb_opened_create_storage(
        image: *mut u8,
        image_len: usize,
        work: *const u32,
        work_len: usize,
        volume: *const Found,
        path: *const u16,
        path_len: usize,
    ) -> u32;
    fn cfb_opened_remove(
        image: *mut u8,
        image_len: usize,
        work: *mut u32,
        work_len: usize,
        volume: *const Found,
        path: *const u16,
        path_len: usize,
    ) -> u32;
    fn cfb_opened_list(
        image: *const u8,
        image_len: usize,
        work: *mut u32,
        work_len: usize,
        volume: *const Found,
        out: *mut u8,
        out_len: usize,
        count: *mut u64,
    ) -> u32;
}

/// An image that is open, with its work buffer and what opening found. The image is borrowed shared (`&[u8]`) or
/// exclusively (`&mut [u8]`): there is no other way to make one, and both give the same bytes each time.
pub struct OpenVolume<'a, I: Deref<Target = [u8]>> {
    image: I,
    work: &'a mut [u32],
    found: Found,
}

/// An opened volume as it can be lent to many at once: for the calls that write to none of it.
#[derive(Clone, Copy)]
pub struct Shared<'v> {
    image: &'v [u8],
    work: &'v [u32],
    found: &'v Found,
}

impl<'a, I: Deref<Target = [u8]>> OpenVolume<'a, I> {
    fn open(image: I, work: &'a mut [u32]) -> Result<Self, Refusal> {
        let mut found = Found { numbers: [0; 9] };
        let (bytes, length) = (image.as_ptr(), image.len());
        // SAFETY: slices, and a variable of this function for what is found. The image is only read.
        answered(unsafe { cfb_open(bytes, length, work.as_mut_ptr(), work.len(), &mut found) })?;
        Ok(OpenVolume { image, work, found })
    }

    pub fn image(&self) -> &[u8] {
        &self.image
    }

    pub fn shared(&self) -> Shared<'_> {
        Shared { image: &self.image, work: self.work, found: &self.found }
    }

    pub fn list(&mut self, out: &mut [u8]) -> Result<usize, Refusal> {
        let (image, image_len) = (self.image.as_ptr(), self.image.len());
        let (work, work_len) = (self.work.as_mut_ptr(), self.work.len());
        let (out, out_len) = (out.as_mut_ptr(), out.len());
        let mut count = 0;
        // SAFETY: the volume is open, as its type keeps it; the out buffer is a slice, the count a variable of this
        // function. The image is only read, so it may be a shared one.
        let answer =
            unsafe { cfb_opened_list(image, image_len, work, work_len, &self.found, out, out_len, &mut count) };
        counted((answer, count))
    }
}

impl<'a> OpenVolume<'a, &'a [u8]> {
    pub fn open_shared(image: &'a [u8], work: &'a mut [u32]) -> Result<Self, Refusal> {
        OpenVolume::open(image, work)
    }
}

impl<'a> OpenVolume<'a, &'a mut [u8]> {
    pub fn open_exclusive(image: &'a mut [u8], work: &'a mut [u32]) -> Result<Self, Refusal> {
        OpenVolume::open(image, work)
    }

    pub fn overwrite(&mut self, path: &[u16], offset: u64, bytes: &[u8]) -> Result<(), Refusal> {
        let (image, image_len) = (self.image.as_mut_ptr(), self.image.len());
        let (work, work_len) = (self.work.as_mut_ptr(), self.work.len());
        let (path, path_len) = (path.as_ptr(), path.len());
        let (bytes, bytes_len) = (bytes.as_ptr(), bytes.len());
        let volume = &self.found;
        // SAFETY: the volume is open, as its type keeps it, and stays open; its image is borrowed exclusively. Path and
        // bytes are slices. Any offset may be given.
        answered(unsafe {
            cfb_opened_overwrite(image, image_len, work, work_len, volume, path, path_len, offset, bytes, bytes_len)
        })
    }

    pub fn set_len(&mut self, path: &[u16], new_len: u64) -> Result<(), Refusal> {
        let (image, image_len) = (self.image.as_mut_ptr(), self.image.len());
        let (work, work_len) = (self.work.as_mut_ptr(), self.work.len());
        let (path, path_len) = (path.as_ptr(), path.len());
        let volume = &self.found;
        // SAFETY: the volume is open, as its type keeps it, and stays open; its image is borrowed exclusively. The path
        // is a slice. Any length may be given.
        answered(unsafe { cfb_opened_set_len(image, image_len, work, work_len, volume, path, path_len, new_len) })
    }

    pub fn create_stream(&mut self, path: &[u16]) -> Result<(), Refusal> {
        let (image, image_len) = (self.image.as_mut_ptr(), self.image.len());
        let (work, work_len) = (self.work.as_ptr(), self.work.len());
        let (path, path_len) = (path.as_ptr(), path.len());
        let volume = &self.found;
        // SAFETY: the volume is open, as its type keeps it, and stays open; its image is borrowed exclusively. The path
        // is a slice.
        answered(unsafe { cfb_opened_create_stream(image, image_len, work, work_len, volume, path, path_len) })
    }

    pub fn create_storage(&mut self, path: &[u16]) -> Result<(), Refusal> {
        let (image, image_len) = (self.image.as_mut_ptr(), self.image.len());
        let (work, work_len) = (self.work.as_ptr(), self.work.len());
        let (path, path_len) = (path.as_ptr(), path.len());
        let volume = &self.found;
        // SAFETY: the volume is open, as its type keeps it, and stays open; its image is borrowed exclusively. The path
        // is a slice.
        answered(unsafe { cfb_opened_create_storage(image, image_len, work, work_len, volume, path, path_len) })
    }

    pub fn remove(&mut self, path: &[u16]) -> Result<(), Refusal> {
        let (image, image_len) = (self.image.as_mut_ptr(), self.image.len());
        let (work, work_len) = (self.work.as_mut_ptr(), self.work.len());
        let (path, path_len) = (path.as_ptr(), path.len());
        let volume = &self.found;
        // SAFETY: the volume is open, as its type keeps it, and stays open; its image is borrowed exclusively. The path
        // is a slice.
        answered(unsafe { cfb_opened_remove(image, image_len, work, work_len, volume, path, path_len) })
    }
}

impl<I: Deref<Target = [u8]>> Drop for OpenVolume<'_, I> {
    fn drop(&mut self) {
        let (image, image_len) = (self.image.as_ptr(), self.image.len());
        let (work, work_len) = (self.work.as_mut_ptr(), self.work.len());
        // SAFETY: the volume is open, as its type keeps it, and this is the last call that it is given to.
        unsafe { cfb_close(image, image_len, work, work_len, &self.found) }
    }
}

impl Shared<'_> {
    pub fn find(&self, path: &[u16]) -> Result<Entry, Refusal> {
        let (image, image_len) = (self.image.as_ptr(), self.image.len());
        let (work, work_len) = (self.work.as_ptr(), self.work.len());
        let (path, path_len) = (path.as_ptr(), path.len());
        let (mut entry, mut kind, mut size) = (0, 0, 0);
        let volume = self.found;
        // SAFETY: the volume is open, as its type keeps it, and only read. The path is a slice, and the values are three
        // variables of this function.
        let answer = unsafe {
            cfb_opened_find(image, image_len, work, work_len, volume, path, path_len, &mut entry, &mut kind, &mut size)
        };
        found((answer, entry, kind, size))
    }

    pub fn read(&self, path: &[u16], offset: u64, out: &mut [u8]) -> Result<usize, Refusal> {
        let (image, image_len) = (self.image.as_ptr(), self.image.len());
        let (work, work_len) = (self.work.as_ptr(), self.work.len());
        let (path, path_len) = (path.as_ptr(), path.len());
        let (out, out_len) = (out.as_mut_ptr(), out.len());
        let mut count = 0;
        let volume = self.found;
        // SAFETY: the volume is open, as its type keeps it, and only read. Path and out buffer are slices, and the count
        // is a variable of this function. Any offset may be given.
        let answer = unsafe {
            cfb_opened_read(image, image_len, work, work_len, volume, path, path_len, offset, out, out_len, &mut count)
        };
        counted((answer, count))
    }

    pub fn read_at(&self, entry: u32, position: u64, out: &mut [u8]) -> Result<usize, Refusal> {
        let (image, image_len) = (self.image.as_ptr(), self.image.len());
        let (work, work_len) = (self.work.as_ptr(), self.work.len());
        let (out, out_len) = (out.as_mut_ptr(), out.len());
        let mut count = 0;
        let volume = self.found;
        // SAFETY: the volume is open, as its type keeps it, and only read. The out buffer is a slice, and the count is a
        // variable of this function. Any numbers may be given.
        let answer = unsafe {
            cfb_opened_read_at(image, image_len, work, work_len, volume, entry, position, out, out_len, &mut count)
        };
        counted((answer, count))
    }
}
