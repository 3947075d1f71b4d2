//! Group 11: the counts of table sectors, where they lie, and their marks in the FAT.

use super::edit::{put, wrong};
use super::{Break, rule};
use crate::images::Sample;
use crate::number::*;
use crate::random::Random;
use crate::volume::tables::difat_needed;

pub const BREAKS: &[Break] = &[
    rule(11, "F is 0", |s, _| put(s, 44, 0)),
    rule(11, "F huge", |s, r| {
        let f = r.pick(&[FREE, END, 0x8000_0000, 0x0200_0000, 0x1_0000]);
        put(s, 44, f)
    }),
    rule(11, "F is N and more", |s, r| {
        let f = s.layout.sectors + r.below(3);
        put(s, 44, f)
    }),
    rule(11, "F one more than listed", |s, _| put(s, 44, s.layout.fat.len() as u32 + 1)),
    rule(11, "F one fewer than listed", |s, _| put(s, 44, s.layout.fat.len() as u32 - 1)),
    rule(11, "fewer cells than N", too_few_cells),
    rule(11, "spare FAT sector taken off the list", unlisted),
    rule(11, "D is 1 with F at most 109", one_difat_sector_too_many),
    rule(11, "D one too large, F above 109", longer_difat),
    rule(11, "D one too small", shorter_difat),
    rule(11, "D wrong, chain right", wrong_difat_count),
    rule(11, "D is 0, field at 68 not end of chain", difat_start_without_difat),
    rule(11, "D above 0, field at 68 wrong", wrong_difat_start),
    rule(11, "last DIFAT link not end of chain", last_link),
    rule(11, "DIFAT link in the middle", middle_link),
    rule(11, "DIFAT entry past F not free", entry_past_fat),
    rule(11, "FAT sector from N on", fat_outside),
    rule(11, "FAT sector listed twice", fat_twice),
    rule(11, "FAT sector listed that is another's", fat_elsewhere),
    rule(11, "DIFAT sector listed as FAT sector", difat_as_fat),
    rule(11, "FAT sector as DIFAT sector", fat_as_difat),
    rule(11, "FATSECT or DIFSECT on a free sector", mark_on_free),
    rule(11, "FATSECT or DIFSECT in a chain", mark_in_chain),
    rule(11, "FAT sector without FATSECT", fat_unmarked),
    rule(11, "DIFAT sector without DIFSECT", difat_unmarked),
];

/// Where the FAT has no cell to spare, one more sector.
fn too_few_cells(s: &mut Sample, r: &mut Random) -> Option<()> {
    let full = s.layout.sectors == s.layout.cell_count();
    let byte = r.byte();
    s.image.resize(s.image.len() + s.layout.geometry.sector, byte);
    full.then_some(())
}

/// The last FAT sector is not needed, nor more or fewer DIFAT sectors without it, but it keeps its FATSECT.
fn unlisted(s: &mut Sample, _: &mut Random) -> Option<()> {
    let (g, fewer) = (s.layout.geometry, s.layout.fat.len() - 1);
    let spare = fewer >= 1 && fewer * g.cells >= s.layout.sectors as usize;
    (spare && difat_needed(g, fewer as u64) == s.layout.difat.len() as u64).then_some(())?;
    s.put(s.layout.difat_entry(fewer), FREE);
    put(s, 44, fewer as u32)
}

fn one_difat_sector_too_many(s: &mut Sample, r: &mut Random) -> Option<()> {
    s.layout.difat.is_empty().then_some(())?;
    let extra = s.empty_difat_sector(r)?;
    s.put(68, extra);
    put(s, 72, 1)
}

fn longer_difat(s: &mut Sample, r: &mut Random) -> Option<()> {
    let last = s.layout.difat.len().checked_sub(1)?;
    let extra = s.empty_difat_sector(r)?;
    s.put(s.layout.difat_link(last), extra);
    put(s, 72, last as u32 + 2)
}

/// The last DIFAT sector is given up and becomes a free one.
fn shorter_difat(s: &mut Sample, _: &mut Random) -> Option<()> {
    let &gone = s.layout.difat.last()?;
    let fewer = s.layout.difat.len() - 1;
    let link = if fewer == 0 { 68 } else { s.layout.difat_link(fewer - 1) };
    s.put(link, END);
    s.set_cell(gone, FREE);
    put(s, 72, fewer as u32)
}

fn wrong_difat_count(s: &mut Sample, r: &mut Random) -> Option<()> {
    let right = s.layout.difat.len() as u32;
    put(s, 72, wrong(r, right, &[0, 1, 2, right + 1, right.wrapping_sub(1), FREE, END, 0x8000_0000]))
}

fn difat_start_without_difat(s: &mut Sample, r: &mut Random) -> Option<()> {
    s.layout.difat.is_empty().then_some(())?;
    let last = s.layout.sectors - 1;
    put(s, 68, r.pick(&[FREE, FATSECT, DIFSECT, 0, last, last + 1, s.layout.fat[0]]))
}

fn wrong_difat_start(s: &mut Sample, r: &mut Random) -> Option<()> {
    let &right = s.layout.difat.first()?;
    let n = s.layout.sectors;
    put(s, 68, wrong(r, right, &[END, FREE, DIFSECT, n, n + 1, s.layout.directory[0], s.layout.fat[0], 0x7F_FFFF]))
}

fn last_link(s: &mut Sample, r: &mut Random) -> Option<()> {
    let last = s.layout.difat.len().checked_sub(1)?;
    let (own, first) = (s.layout.difat[last], s.layout.difat[0]);
    let values = [FREE, FATSECT, DIFSECT, 0, own, first, s.layout.fat[0], s.layout.sectors];
    put(s, s.layout.difat_link(last), r.pick(&values))
}

/// Any but the last: to no sector, to a wrong one, or past the next.
fn middle_link(s: &mut Sample, r: &mut Random) -> Option<()> {
    let middle = r.index(s.layout.difat.len().checked_sub(1).filter(|&links| links > 0)?);
    let (own, first) = (s.layout.difat[middle], s.layout.difat[0]);
    let after = s.layout.difat.get(middle + 2).copied().unwrap_or(END);
    let values = [END, FREE, DIFSECT, own, first, after, s.layout.fat[0], s.layout.sectors];
    put(s, s.layout.difat_link(middle), r.pick(&values))
}

fn entry_past_fat(s: &mut Sample, r: &mut Random) -> Option<()> {
    let (from, to) = (s.layout.fat.len(), s.layout.difat_entry_count());
    (from < to).then_some(())?;
    let any = from + r.index(to - from);
    let i = r.pick(&[from, to - 1, any]);
    let values = [END, FATSECT, DIFSECT, 0, s.layout.sectors, s.layout.fat[0], s.layout.directory[0]];
    put(s, s.layout.difat_entry(i), r.pick(&values))
}

/// A random FAT sector's number in the DIFAT.
fn fat_entry(s: &Sample, r: &mut Random) -> usize {
    s.layout.difat_entry(r.index(s.layout.fat.len()))
}

fn fat_outside(s: &mut Sample, r: &mut Random) -> Option<()> {
    let n = s.layout.sectors;
    put(s, fat_entry(s, r), r.pick(&[n, n + 1, FREE, END, FATSECT, 0x007F_FFFF, 0x0080_0000, 0x8000_0000]))
}

fn fat_twice(s: &mut Sample, r: &mut Random) -> Option<()> {
    let at = fat_entry(s, r);
    let other = r.pick(&s.layout.fat);
    (s.get(at) != other).then_some(())?;
    put(s, at, other)
}

fn fat_elsewhere(s: &mut Sample, r: &mut Random) -> Option<()> {
    let others = [&s.layout.free[..], &s.layout.directory, &s.layout.mini_stream, &s.layout.mini_fat].concat();
    put(s, fat_entry(s, r), r.pick(&others))
}

fn difat_as_fat(s: &mut Sample, r: &mut Random) -> Option<()> {
    let &difat = r.some(&s.layout.difat)?;
    put(s, fat_entry(s, r), difat)
}

fn fat_as_difat(s: &mut Sample, r: &mut Random) -> Option<()> {
    s.layout.difat.first()?;
    put(s, 68, r.pick(&s.layout.fat))
}

fn mark_on_free(s: &mut Sample, r: &mut Random) -> Option<()> {
    let &free = r.some(&s.layout.free)?;
    put(s, s.layout.cell(free), r.pick(&[FATSECT, DIFSECT]))
}

fn mark_in_chain(s: &mut Sample, r: &mut Random) -> Option<()> {
    let chained = [&s.layout.directory[..], &s.layout.mini_fat, &s.layout.mini_stream].concat();
    put(s, s.layout.cell(r.pick(&chained)), r.pick(&[FATSECT, DIFSECT]))
}

fn fat_unmarked(s: &mut Sample, r: &mut Random) -> Option<()> {
    let fat = r.pick(&s.layout.fat);
    let n = s.layout.sectors;
    put(s, s.layout.cell(fat), r.pick(&[END, FREE, DIFSECT, 0, n - 1, n, 0xFFFF_FFFB]))
}

fn difat_unmarked(s: &mut Sample, r: &mut Random) -> Option<()> {
    let &difat = r.some(&s.layout.difat)?;
    let n = s.layout.sectors;
    put(s, s.layout.cell(difat), r.pick(&[END, FREE, FATSECT, 0, n - 1, n, 0xFFFF_FFFB]))
}
