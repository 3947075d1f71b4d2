//! Entry numbers: of streams, of all else that a directory has, and of nothing (W-212).

use crate::model::{Model, Row};
use crate::number::NOSTREAM;
use crate::random::Random;

pub fn entry(model: &Model, r: &mut Random) -> u32 {
    match r.below(16) {
        0..9 => of_some(model, r, |row| row.bytes.is_some()),
        // The root's too.
        9..11 => of_some(model, r, |row| row.bytes.is_none()),
        11 => blank(model, r),
        12 => r.below(model.entries()),
        13 => model.entries() + r.pick(&[0, 0, 1, 2, 3, 31, 32]),
        14 => far(of_some(model, r, |row| row.bytes.is_some()), r),
        _ => r.pick(&[NOSTREAM, NOSTREAM, NOSTREAM - 1, 1 << 31, 1 << 16]),
    }
}

/// The root's where there is none.
fn of_some(model: &Model, r: &mut Random, asked: fn(&Row) -> bool) -> u32 {
    let entries: Vec<u32> = model.rows.iter().filter(|row| asked(row)).map(|row| row.entry).collect();
    r.some(&entries).copied().unwrap_or(0)
}

/// The first past the directory where there is none.
fn blank(model: &Model, r: &mut Random) -> u32 {
    let blanks: Vec<u32> = model.blanks.iter().copied().collect();
    r.some(&blanks).copied().unwrap_or(model.entries())
}

/// The same in its lower bits, or where its bytes would start in 32 bits.
fn far(entry: u32, r: &mut Random) -> u32 {
    entry + r.pick(&[1 << 8, 1 << 16, 1 << 24, 1 << 25, 1 << 30, 1 << 31])
}
