//! Where a seek leads, in a stream and at a cursor.

#![forbid(unsafe_code)]

use std::io::{self, SeekFrom};

/// The new position, by the old one and the stream's size. One before the start or above `u64::MAX` is an error.
pub fn sought(to: SeekFrom, position: u64, size: u64) -> io::Result<u64> {
    let sought = match to {
        SeekFrom::Start(offset) => Some(offset),
        SeekFrom::End(offset) => size.checked_add_signed(offset),
        SeekFrom::Current(offset) => position.checked_add_signed(offset),
    };
    sought.ok_or_else(|| {
        io::Error::new(io::ErrorKind::InvalidInput, "the position is before the stream's start, or too large")
    })
}
