//! Groups 11 and 12: where FAT and DIFAT lie, and the FAT's cells.

use super::cells::{self, Seen};
use super::image::{Image, words};
use super::marks::TABLE;
use crate::number::*;

#[derive(Clone, Copy)]
pub struct Counts {
    pub fat: usize,
    pub difat: usize,
}

/// The header's, which are right so far.
pub fn counts<const S: usize>(image: Image<S>) -> Result<Counts, u32> {
    let (fat, difat) = (u32_at(image.header, 44) as usize, u32_at(image.header, 72) as usize);
    // More than N sectors cannot all be different.
    let right = 1 <= fat
        && fat <= image.count()
        && image.count() <= Image::<S>::CELLS * fat
        && difat == fat.saturating_sub(HEADER_DIFAT).div_ceil(Image::<S>::CELLS - 1);
    if right { Ok(Counts { fat, difat }) } else { Err(11) }
}

/// Copies the cells of all sectors to `next` and marks those of the tables, which are listed. The number of free sectors.
pub fn read<const S: usize>(
    image: Image<S>,
    counts: Counts,
    next: &mut [u32],
    listed: &mut [u32],
) -> Result<usize, u32> {
    let (fat, difat) = listed.split_at_mut(counts.fat);
    let mut seen = Seen::default();
    let listed = list(image, fat, difat);
    let rest_free = listed.and_then(|()| cells::copy_table(image, fat, next, DIFSECT, &mut seen)).ok_or(11u32)?;
    let marked = mark(next, fat, FATSECT) && mark(next, difat, DIFSECT);
    if !marked || seen.tables as usize != counts.fat + counts.difat {
        return Err(11);
    }
    if seen.wild || !rest_free { Err(12) } else { Ok(seen.free as usize) }
}

/// Lists the sectors of both tables. None if the links are wrong, or an entry behind the last FAT sector is not free.
fn list<const S: usize>(image: Image<S>, fat: &mut [u32], difat: &mut [u32]) -> Option<()> {
    let mut fat = take(words(&image.header[76..512]), fat)?;
    let mut next = u32_at(image.header, 68);
    for sector in difat {
        *sector = next;
        let (link, entries) = words(image.sectors.get(next as usize)?).split_last()?;
        fat = take(entries, fat)?;
        next = u32::from_le_bytes(*link);
    }
    (next == END).then_some(())
}

/// Takes entries as far as there is room for them; the others have to be free. The room left.
fn take<'a>(entries: &[[u8; 4]], room: &'a mut [u32]) -> Option<&'a mut [u32]> {
    let (named, spare) = entries.split_at(entries.len().min(room.len()));
    let (to, rest) = room.split_at_mut(named.len());
    to.iter_mut().zip(named).for_each(|(to, from)| *to = u32::from_le_bytes(*from));
    cells::all_free(spare).then_some(rest)
}

/// Each of these sectors has this cell, so none stands here twice; puts a mark in its place.
fn mark(next: &mut [u32], sectors: &[u32], cell: u32) -> bool {
    sectors.iter().all(|&s| next.get_mut(s as usize).is_some_and(|next| std::mem::replace(next, TABLE) == cell))
}
