//! Group 10.

use super::image::Image;
use crate::number::*;

const SIGNATURE: u64 = u64::from_le_bytes([0xD0, 0xCF, 0x11, 0xE0, 0xA1, 0xB1, 0x1A, 0xE1]);

pub fn check<const S: usize>(image: Image<S>) -> Result<(), u32> {
    let bytes = image.header;
    let (major, shift) = if S == 512 { (3, 9) } else { (4, 12) };
    let holds = u64_at(bytes, 0) == SIGNATURE
        && u64_at(bytes, 8) == 0
        && u64_at(bytes, 16) == 0
        && u16_at(bytes, 26) == major
        && u16_at(bytes, 28) == 0xFFFE
        && u16_at(bytes, 30) == shift
        && u16_at(bytes, 32) == 6
        && u32_at(bytes, 34) == 0
        && u16_at(bytes, 38) == 0
        && (S != 512 || u32_at(bytes, 40) == 0)
        && u32_at(bytes, 56) == CUTOFF as u32
        && bytes[512..].iter().fold(0, |any, byte| any | byte) == 0;
    if holds { Ok(()) } else { Err(10) }
}
