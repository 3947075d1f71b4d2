//! Little-endian numbers at byte places, and the special values. What lies behind the end reads as zero, so that no
//! place is out of bounds.

pub const FREE: u32 = 0xFFFF_FFFF;
pub const END: u32 = 0xFFFF_FFFE;
pub const FATSECT: u32 = 0xFFFF_FFFD;
pub const DIFSECT: u32 = 0xFFFF_FFFC;
pub const NOSTREAM: u32 = 0xFFFF_FFFF;

/// The bytes of a mini sector.
pub const MINI_SECTOR: u64 = 64;
/// Streams of so many bytes and more lie in sectors.
pub const CUTOFF: u64 = 4096;
/// The DIFAT entries in the header.
pub const HEADER_DIFAT: usize = 109;
/// The bytes of a directory entry.
pub const ENTRY: usize = 128;

fn chunk<const LEN: usize>(bytes: &[u8], at: usize) -> [u8; LEN] {
    bytes.get(at..).and_then(|rest| rest.first_chunk()).copied().unwrap_or([0; LEN])
}

pub fn u8_at(bytes: &[u8], at: usize) -> u8 {
    bytes.get(at).copied().unwrap_or(0)
}

pub fn u16_at(bytes: &[u8], at: usize) -> u16 {
    u16::from_le_bytes(chunk(bytes, at))
}

pub fn u32_at(bytes: &[u8], at: usize) -> u32 {
    u32::from_le_bytes(chunk(bytes, at))
}

pub fn u64_at(bytes: &[u8], at: usize) -> u64 {
    u64::from_le_bytes(chunk(bytes, at))
}

/// These bytes as 32-bit numbers.
pub fn words(bytes: &[u8]) -> impl Iterator<Item = u32> + '_ {
    bytes.chunks_exact(4).map(|word| u32_at(word, 0))
}

/// The value of a cell, or of a field that starts a chain, as a reader should see it.
pub fn cell_text(value: u32) -> String {
    match value {
        FREE => "FFFFFFFF (free)".into(),
        END => "FFFFFFFE (end of chain)".into(),
        FATSECT => "FFFFFFFD (FATSECT)".into(),
        DIFSECT => "FFFFFFFC (DIFSECT)".into(),
        0x1000_0000.. => format!("{value:08X} hex"),
        _ => value.to_string(),
    }
}

/// The value of a link to an entry.
pub fn link_text(value: u32) -> String {
    match value {
        NOSTREAM => "FFFFFFFF (none)".into(),
        0x1000_0000.. => format!("{value:08X} hex"),
        _ => value.to_string(),
    }
}

/// A number and its noun: 1 sector, 2 sectors.
pub fn counted(number: u64, noun: &str) -> String {
    if number == 1 { format!("1 {noun}") } else { format!("{number} {noun}s") }
}
