//! The C interface of pulse streams (include/pulse.h), called with slices. What it asks of pointers is what `calls` says.

#![allow(unsafe_code)]

extern "C" {
    fn pulse_summary(
        image: *const u8,
        image_len: usize,
        work: *mut u32,
        work_len: usize,
        path: *const u16,
        path_len: usize,
        count: *mut u32,
        total: *mut u64,
    ) -> u32;
    fn pulse_record(
        image: *const u8,
        image_len: usize,
        work: *mut u32,
        work_len: usize,
        path: *const u16,
        path_len: usize,
        number: u32,
        valve: *mut u16,
        ticks: *mut u32,
    ) -> u32;
    fn pulse_add(
        image: *mut u8,
        image_len: usize,
        work: *mut u32,
        work_len: usize,
        path: *const u16,
        path_len: usize,
        valve: u16,
        ticks: u32,
    ) -> u32;
}

/// The answer, the count of records and the total of their ticks.
pub fn summary(image: &[u8], work: &mut [u32], path: &[u16]) -> (u32, u32, u64) {
    let (image, image_len) = (image.as_ptr(), image.len());
    let (work, work_len) = (work.as_mut_ptr(), work.len());
    let (path, path_len) = (path.as_ptr(), path.len());
    let (mut count, mut total) = (0, 0);
    // SAFETY: slices, and two variables of this function for the values. Image and path are only read.
    let answer = unsafe { pulse_summary(image, image_len, work, work_len, path, path_len, &mut count, &mut total) };
    (answer, count, total)
}

/// The answer, the record's valve and its ticks.
pub fn record(image: &[u8], work: &mut [u32], path: &[u16], number: u32) -> (u32, u16, u32) {
    let (image, image_len) = (image.as_ptr(), image.len());
    let (work, work_len) = (work.as_mut_ptr(), work.len());
    let (path, path_len) = (path.as_ptr(), path.len());
    let (mut valve, mut ticks) = (0, 0);
    // SAFETY: slices, and two variables of this function for the values. Image and path are only read.
    let answer =
        unsafe { pulse_record(image, image_len, work, work_len, path, path_len, number, &mut valve, &mut ticks) };
    (answer, valve, ticks)
}

/// The answer.
pub fn add(image: &mut [u8], work: &mut [u32], path: &[u16], valve: u16, ticks: u32) -> u32 {
    let (image, image_len) = (image.as_mut_ptr(), image.len());
    let (work, work_len) = (work.as_mut_ptr(), work.len());
    // SAFETY: slices; image and work buffer are written, and lent to this call alone.
    unsafe { pulse_add(image, image_len, work, work_len, path.as_ptr(), path.len(), valve, ticks) }
}
