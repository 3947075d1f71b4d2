//! A unit that a chain owns gets a mark in the place of its cell, which tells how many units are left from there. Where a chain
//! meets a mark, it is right if as many are left for it, and shares the rest.

/// Cells that name a unit are below it, and special values far above all marks.
pub const MARK: u32 = 1 << 31;
/// The mark of a table sector, with which no chain goes on.
pub const TABLE: u32 = MARK;
/// In the directory's chain, whose length is not known while it is walked, a mark tells how many units came before.
pub const DIRECTORY: u32 = MARK | 1 << 30;

pub fn left(units: u32) -> u32 {
    MARK | units
}

pub fn before(units: u32) -> u32 {
    DIRECTORY | units
}

/// The units left from a mark, where the directory has so many sectors. A free cell gives a number that no chain has.
pub fn units(mark: u32, directory: u32) -> u32 {
    if mark & DIRECTORY == DIRECTORY { directory.wrapping_sub(mark & !DIRECTORY) } else { mark & !MARK }
}
