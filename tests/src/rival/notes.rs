//! The streams that are not empty, noted while the directory is read, so that it is not read again for their chains.

use crate::number::*;

/// The start, and the units of its chain: with LARGE for sectors, else mini sectors.
pub type Note = [u32; 2];
pub const LARGE: u32 = 1 << 31;

/// What a stream needs.
pub enum Need {
    Nothing,
    Chain(Note),
    /// What no chain can be.
    Wrong,
}

/// Of a stream in an image of so many sectors of S bytes. In version 3 the lower half of a size counts.
pub fn need<const S: usize>(entry: &[u8; ENTRY], sectors: usize) -> Need {
    let start = u32_at(entry, 116);
    let size = if S == 512 { u32_at(entry, 120) as u64 } else { u64_at(entry, 120) };
    match size {
        0 if start == END => Need::Nothing,
        0 => Need::Wrong,
        1..CUTOFF => Need::Chain([start, (size as u32).div_ceil(MINI_SECTOR as u32)]),
        _ if size > (sectors * S) as u64 => Need::Wrong,
        _ => Need::Chain([start, (size as u32).div_ceil(S as u32) | LARGE]),
    }
}
