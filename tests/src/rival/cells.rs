//! The cells of a table, a sector at a time. The loops have no way out, so that several cells are looked at in one instruction.

use super::image::{Image, words};
use crate::number::*;

/// What was seen of the cells that were copied.
#[derive(Default)]
pub struct Seen {
    /// One neither names a unit nor is special.
    pub wild: bool,
    /// FATSECT or DIFSECT.
    pub tables: u32,
    pub free: u32,
}

/// Copies the cells of the table in these sectors as far as they stand for a unit; whether the others are free. None if there is
/// no such sector.
pub fn copy_table<const S: usize>(
    image: Image<S>,
    sectors: &[u32],
    cells: &mut [u32],
    special: u32,
    seen: &mut Seen,
) -> Option<bool> {
    let (limit, mut cells, mut rest_free) = (cells.len(), cells, true);
    for batch in sectors.chunks(Image::<S>::AHEAD) {
        image.touch(batch);
        for &s in batch {
            let block = words(image.sectors.get(s as usize)?);
            let (used, spare) = block.split_at(block.len().min(cells.len()));
            let (to, after) = cells.split_at_mut(used.len());
            copy(used, to, limit, special, seen);
            rest_free &= all_free(spare);
            cells = after;
        }
    }
    Some(rest_free)
}

/// Copies cells of a table of so many units, of whose special values the lowest is given.
fn copy(from: &[[u8; 4]], to: &mut [u32], limit: usize, special: u32, seen: &mut Seen) {
    // Special values come to lie below the units, so that one comparison tells.
    let shift = special.wrapping_neg();
    let end = limit as u32 + shift;
    let (mut wild, mut tables, mut free) = (0, 0, 0);
    for (to, from) in to.iter_mut().zip(from) {
        let cell = u32::from_le_bytes(*from);
        *to = cell;
        wild |= (cell.wrapping_add(shift) >= end) as u32;
        tables += (cell | 1 == FATSECT) as u32;
        free += (cell == FREE) as u32;
    }
    seen.wild |= wild != 0;
    seen.tables += tables;
    seen.free += free;
}

pub fn all_free(cells: &[[u8; 4]]) -> bool {
    cells.iter().fold(FREE, |all, cell| all & u32::from_le_bytes(*cell)) == FREE
}
