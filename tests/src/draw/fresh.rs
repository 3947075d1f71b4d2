//! What a fresh image is asked for (W-209).

use crate::calls::format::Fresh;
use crate::geometry::{Geometry, VERSIONS};
use crate::random::Random;
use crate::volume::tables::difat_needed;

/// Versions that there are not; the last ones hold a 3 or a 4 in some of their bytes.
pub const UNKNOWN: [u32; 10] = [0, 1, 2, 5, 6, u32::MAX, 0x103, 0x400, 0x1_0003, 0x8000_0004];

/// For a buffer of so many bytes: mostly what fits, or nearly does.
pub fn asked(bytes: usize, r: &mut Random) -> Fresh {
    let g = r.pick(&VERSIONS);
    let sectors = (bytes / g.sector).saturating_sub(1) as u64;
    let [directory, mini_fat, minis] = parts(g, sectors, r);
    let mut asked = Fresh { version: g.major as u32, sectors, directory, mini_fat, minis };
    match r.below(20) {
        0 => asked.version = r.pick(&UNKNOWN),
        1 => asked.sectors = off(sectors, r),
        2 => asked.directory = 0,
        3 => asked.directory = off(directory, r),
        4 => asked.mini_fat = off(mini_fat, r),
        5 => asked.minis = off(minis, r),
        _ => {}
    }
    asked
}

/// Sectors of the directory and of the mini FAT, and mini sectors. The parts fill all N sectors, take one more, or leave some free.
fn parts(g: Geometry, sectors: u64, r: &mut Random) -> [u64; 3] {
    let fat = sectors.div_ceil(g.cells as u64);
    let room = sectors.saturating_sub(fat + difat_needed(g, fat));
    let mini_stream = if r.one_in(4) { 0 } else { r.below(room as u32) as u64 };
    // The last sector is filled, or holds any number of mini sectors.
    let short = if r.one_in(3) { 0 } else { r.below(g.minis as u32) as u64 };
    let minis = (mini_stream * g.minis as u64).saturating_sub(short);
    let mini_fat = minis.div_ceil(g.cells as u64) + r.pick(&[0, 0, 0, 1, 2]);
    let left = room.saturating_sub(mini_stream + mini_fat);
    let directory = match r.below(6) {
        0 => left,
        1 => left + 1,
        2 => 1,
        _ => r.between(1, left.max(1) as u32) as u64,
    };
    [directory, mini_fat, minis]
}

/// One more or less; or a number that is the same in its lower half, or that times a power of 2 is the same in 64 bits.
fn off(number: u64, r: &mut Random) -> u64 {
    let near = [number.wrapping_sub(1), number + 1, number + 2];
    let far = [1 << 32, 1 << 52, 1 << 55, 1 << 57, 1 << 58, 1 << 63].map(|more: u64| more + number);
    let last = [u64::MAX, u64::MAX - number, 1 << 63];
    match r.below(3) {
        0 => r.pick(&near),
        1 => r.pick(&far),
        _ => r.pick(&last),
    }
}
