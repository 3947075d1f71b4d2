//! The header's fields that lead to the tables.

use super::number::u32_at;

/// Where the fields stand.
pub const DIRECTORY_COUNT: usize = 40;
pub const FAT_COUNT: usize = 44;
pub const FIRST_DIRECTORY: usize = 48;
pub const FIRST_MINI_FAT: usize = 60;
pub const MINI_FAT_COUNT: usize = 64;
pub const FIRST_DIFAT: usize = 68;
pub const DIFAT_COUNT: usize = 72;
pub const DIFAT: usize = 76;

pub const SIGNATURE: [u8; 8] = [0xD0, 0xCF, 0x11, 0xE0, 0xA1, 0xB1, 0x1A, 0xE1];

pub struct Header {
    pub directory_count: u32,
    pub fat_count: u32,
    pub first_directory: u32,
    pub first_mini_fat: u32,
    pub mini_fat_count: u32,
    pub first_difat: u32,
    pub difat_count: u32,
}

impl Header {
    pub fn of(bytes: &[u8]) -> Header {
        Header {
            directory_count: u32_at(bytes, DIRECTORY_COUNT),
            fat_count: u32_at(bytes, FAT_COUNT),
            first_directory: u32_at(bytes, FIRST_DIRECTORY),
            first_mini_fat: u32_at(bytes, FIRST_MINI_FAT),
            mini_fat_count: u32_at(bytes, MINI_FAT_COUNT),
            first_difat: u32_at(bytes, FIRST_DIFAT),
            difat_count: u32_at(bytes, DIFAT_COUNT),
        }
    }
}
