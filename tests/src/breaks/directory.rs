//! Group 13: the directory's chain, and in version 4 the count of its sectors.

use super::edit::{put, wrong};
use super::{Break, rule};
use crate::geometry::V4;
use crate::images::Sample;
use crate::number::*;
use crate::random::Random;

pub const BREAKS: &[Break] = &[
    rule(13, "directory: no sector", |s, _| start(s, END)),
    rule(13, "directory: start special", |s, r| {
        let v = r.pick(&[FREE, FATSECT, DIFSECT]);
        start(s, v)
    }),
    rule(13, "directory: start from N on", start_outside),
    rule(13, "directory: start at a table sector", start_at_table),
    rule(13, "directory: start at a free sector", |s, r| {
        let &v = r.some(&s.layout.free)?;
        start(s, v)
    }),
    rule(13, "directory: free cell in the chain", free_cell),
    rule(13, "directory: ring", ring),
    rule(13, "directory: runs into a table sector", into_table),
    rule(13, "directory: runs into a free sector", into_free),
    rule(13, "directory: count one too small", |s, _| put(s, 40, s.layout.directory.len() as u32 - 1)).only(V4),
    rule(13, "directory: count one too large", |s, _| put(s, 40, s.layout.directory.len() as u32 + 1)).only(V4),
    rule(13, "directory: count wrong", wrong_count).only(V4),
    rule(13, "directory: a sector more than counted", |s, r| {
        let count = s.get(40);
        s.directory_longer(r)?;
        put(s, 40, count)
    })
    .only(V4),
    rule(13, "directory: a sector fewer than counted", |s, _| {
        let count = s.get(40);
        s.directory_shorter()?;
        put(s, 40, count)
    })
    .only(V4),
];

fn start(s: &mut Sample, value: u32) -> Option<()> {
    s.put(48, value);
    Some(())
}

fn start_outside(s: &mut Sample, r: &mut Random) -> Option<()> {
    let n = s.layout.sectors;
    start(s, r.pick(&[n, n + 1, s.layout.cell_count().max(n), 0x0080_0000, 0x8000_0000, 0xFFFF_FFFA]))
}

fn wrong_count(s: &mut Sample, r: &mut Random) -> Option<()> {
    let right = s.layout.directory.len() as u32;
    let (entries, n) = (s.layout.entry_count(), s.layout.sectors);
    put(s, 40, wrong(r, right, &[0, 8 * right, entries, n, right + 0x0100_0000, right + 0x1_0000, END, FREE]))
}

/// A FAT or a DIFAT sector.
fn table_sector(s: &Sample, r: &mut Random) -> u32 {
    let difat = r.some(&s.layout.difat).copied();
    difat.filter(|_| r.one_in(2)).unwrap_or(r.pick(&s.layout.fat))
}

fn start_at_table(s: &mut Sample, r: &mut Random) -> Option<()> {
    let table = table_sector(s, r);
    start(s, table)
}

/// Some cell of the directory's chain gets this value.
fn cell(s: &mut Sample, r: &mut Random, value: u32) -> Option<()> {
    let sector = r.pick(&s.layout.directory);
    s.set_cell(sector, value);
    Some(())
}

fn free_cell(s: &mut Sample, r: &mut Random) -> Option<()> {
    cell(s, r, FREE)
}

/// The last sector leads back to any of the chain.
fn ring(s: &mut Sample, r: &mut Random) -> Option<()> {
    let back = r.pick(&s.layout.directory);
    s.set_cell(*s.layout.directory.last()?, back);
    Some(())
}

fn into_table(s: &mut Sample, r: &mut Random) -> Option<()> {
    let table = table_sector(s, r);
    cell(s, r, table)
}

fn into_free(s: &mut Sample, r: &mut Random) -> Option<()> {
    let &free = r.some(&s.layout.free)?;
    cell(s, r, free)
}
