//! Offsets and lengths.

use crate::geometry::Geometry;
use crate::images::upper::RUBBISH;
use crate::model::Model;
use crate::number::CUTOFF;
use crate::random::Random;

/// An offset into a stream of this length, or behind it.
pub fn offset(g: Geometry, size: u64, r: &mut Random) -> u64 {
    match r.below(16) {
        0..3 => 0,
        3..6 => near(size, r),
        6..10 => boundary(g, size, r),
        10..14 => r.below(size as u32 + 1) as u64,
        _ => far(size, r),
    }
}

/// The number itself, one less or one more.
fn near(number: u64, r: &mut Random) -> u64 {
    r.pick(&[number, number.saturating_sub(1), number.saturating_add(1)])
}

/// Close to where a unit of this stream ends.
fn boundary(g: Geometry, size: u64, r: &mut Random) -> u64 {
    let unit = r.pick(&[64, g.sector as u64]);
    let line = unit * r.below((size / unit) as u32 + 2) as u64;
    near(line, r)
}

/// Numbers that do not fit in 32 bits, or hardly.
fn far(size: u64, r: &mut Random) -> u64 {
    // What a size with rubbish in its upper half would be in all its eight bytes.
    let whole = ((r.pick(&RUBBISH) as u64) << 32) + size;
    let lines =
        [1 << 31, 1 << 32, whole, whole, 1 << 33, 1 << 63, u64::MAX - size, u64::MAX - 511, u64::MAX - 4_095, u64::MAX];
    let line = r.pick(&lines);
    near(line, r)
}

/// The length of a buffer for which so many bytes are there.
pub fn out_len(need: u64, r: &mut Random) -> usize {
    let need = need as usize;
    match r.below(10) {
        0 => 0,
        1 => 1,
        2 => need.saturating_sub(1),
        3..6 => need,
        6 => need + 1,
        7 => need + r.between(2, 600) as usize,
        8 => r.pick(&[64, 512, 4_096]),
        _ => r.index(need + 1),
    }
}

/// How many bytes to write: none, up to the end, one more, or so many that the sum is 2^64 or a little more.
pub fn write_len(size: u64, offset: u64, r: &mut Random) -> usize {
    let rest = size.saturating_sub(offset) as usize;
    let to_wrap = 0u64.wrapping_sub(offset);
    match r.below(10) {
        0 => 0,
        1..3 => rest,
        3 => rest + 1,
        4 if to_wrap < 10_000 => to_wrap as usize + r.index(3),
        4 => rest + r.between(2, 600) as usize,
        5 => rest.min(64),
        6 => rest.min(r.pick(&[512, 4_096])),
        _ => r.index(rest + 1),
    }
}

/// A new length for a stream of this one.
pub fn length(model: &Model, size: u64, r: &mut Random) -> u64 {
    let sector = model.geometry.sector as u64;
    match r.below(22) {
        0 => size,
        1 => near(size, r),
        2..4 => 0,
        4..6 => boundary(model.geometry, size + 2 * sector, r),
        6..8 => r.pick(&[1, 63, 64, 65, 512, 513, 4_095, 4_096, 4_097, 5_120, 5_121, CUTOFF + sector]),
        8..10 => most(model, size, r),
        10..12 => r.below(2 * size as u32 + 700) as u64,
        12 => r.below(4_096) as u64,
        13 => r.between(4_096, 12_000 + 2 * sector as u32) as u64,
        14 => size / 2,
        15 => far(size, r),
        _ => across(model, size, r),
    }
}

/// On the other side of the cutoff: at the line, close to it, any, or close to the most that there is room for.
fn across(model: &Model, size: u64, r: &mut Random) -> u64 {
    let (sector, free) = (model.geometry.sector as u64, model.free());
    if size < CUTOFF {
        let any = CUTOFF + r.below(4 * sector as u32) as u64;
        let line = r.pick(&[CUTOFF, CUTOFF, CUTOFF + sector, any, any, sector * free.sectors, sector * free.sectors]);
        near(line, r).max(CUTOFF)
    } else {
        let any = r.below(CUTOFF as u32) as u64;
        let line = r.pick(&[1, 64, CUTOFF - 64, CUTOFF, any, any, 64 * free.minis, 64 * free.minis]);
        near(line, r).clamp(1, CUTOFF - 1)
    }
}

/// Close to the greatest length that there is room for, in sectors or in mini sectors.
fn most(model: &Model, size: u64, r: &mut Random) -> u64 {
    let (sector, now, free) = (model.geometry.sector as u64, model.need(size), model.free());
    let lines = [sector * (now.sectors + free.sectors), 64 * (now.minis + free.minis)];
    let line = r.pick(&lines);
    near(line, r)
}
