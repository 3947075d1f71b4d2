//! Group 10: the header.

use crate::geometry::Geometry;
use crate::number::*;

const SIGNATURE: [u8; 8] = [0xD0, 0xCF, 0x11, 0xE0, 0xA1, 0xB1, 0x1A, 0xE1];

/// The header's fields that lead to the tables.
pub struct Header {
    pub directory_count: u32,
    pub fat_count: u32,
    pub first_directory: u32,
    pub first_mini_fat: u32,
    pub mini_fat_count: u32,
    pub first_difat: u32,
    pub difat_count: u32,
    pub difat: Vec<u32>,
}

impl Header {
    /// None if group 10 is broken. Minor version and transaction number are not looked at; a count of the directory's
    /// sectors is, but only in group 13.
    pub fn read(g: Geometry, image: &[u8]) -> Option<Header> {
        let (bytes, rest) = image[..g.sector].split_at(512);
        let holds = bytes[..8] == SIGNATURE
            && zero(&bytes[8..24])
            && u16_at(bytes, 26) == g.major
            && u16_at(bytes, 28) == 0xFFFE
            && u16_at(bytes, 30) == g.shift
            && u16_at(bytes, 32) == 6
            && zero(&bytes[34..40])
            && (g.counts_directory || u32_at(bytes, 40) == 0)
            && u32_at(bytes, 56) == 4096
            && zero(rest);
        holds.then(|| Header {
            directory_count: u32_at(bytes, 40),
            fat_count: u32_at(bytes, 44),
            first_directory: u32_at(bytes, 48),
            first_mini_fat: u32_at(bytes, 60),
            mini_fat_count: u32_at(bytes, 64),
            first_difat: u32_at(bytes, 68),
            difat_count: u32_at(bytes, 72),
            difat: words(&bytes[76..]),
        })
    }
}

pub fn zero(bytes: &[u8]) -> bool {
    bytes.iter().all(|&b| b == 0)
}
