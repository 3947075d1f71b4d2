//! Group 10: the header.

use crate::reader::finding::Finding;
use crate::reader::header::{DIRECTORY_COUNT, SIGNATURE};
use crate::reader::image::Image;
use crate::reader::number::*;
use crate::reader::volume::Volume;

pub fn check(volume: &Volume) -> Result<(), Finding> {
    let (image, bytes) = (&volume.image, volume.image.bytes);
    signature(image)?;
    zero(image, 8..24, "the class identifier in the header")?;
    version(image)?;
    number(image, 28, u16_at(bytes, 28).into(), 0xFFFE, "the byte order mark")?;
    let shift = image.geometry.shift.into();
    number(image, 30, u16_at(bytes, 30).into(), shift, "the sector shift")?;
    number(image, 32, u16_at(bytes, 32).into(), 6, "the mini sector shift")?;
    zero(image, 34..40, "the reserved bytes of the header")?;
    if !image.geometry.counts_directory {
        let count = volume.header.directory_count;
        number(image, DIRECTORY_COUNT, count, 0, "in version 3 the count of directory sectors")?;
    }
    number(image, 56, u32_at(bytes, 56), CUTOFF as u32, "the cutoff of mini streams")?;
    zero(image, 512..image.geometry.sector, "the rest of the header's sector")
}

fn signature(image: &Image) -> Result<(), Finding> {
    let Some(at) = (0..8).find(|&at| u8_at(image.bytes, at) != SIGNATURE[at]) else { return Ok(()) };
    let (there, due) = (u8_at(image.bytes, at), SIGNATURE[at]);
    let text =
        format!("byte {at} of the signature is {there:02X}; it should be {due:02X}, or this is no compound file");
    Err(Finding::new(10, text).at(image, at))
}

fn version(image: &Image) -> Result<(), Finding> {
    let major = u16_at(image.bytes, 26);
    if major == image.geometry.major {
        return Ok(());
    }
    Err(Finding::new(10, format!("the major version is {major}; it should be 3 or 4")).at(image, 26))
}

fn number(image: &Image, at: usize, there: u32, due: u32, what: &str) -> Result<(), Finding> {
    if there == due {
        return Ok(());
    }
    let text = |number: u32| if number < 10 { number.to_string() } else { format!("{number} ({number:X} hex)") };
    Err(Finding::new(10, format!("{what} is {}; it should be {}", text(there), text(due))).at(image, at))
}

fn zero(image: &Image, range: std::ops::Range<usize>, what: &str) -> Result<(), Finding> {
    let Some(at) = range.clone().find(|&at| u8_at(image.bytes, at) != 0) else { return Ok(()) };
    let there = u8_at(image.bytes, at);
    let (first, last) = (range.start, range.end - 1);
    let text = format!("{what}, bytes {first} to {last}, should be zero; byte {at} is {there:02X}");
    Err(Finding::new(10, text).at(image, at))
}
