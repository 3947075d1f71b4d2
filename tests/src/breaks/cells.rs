//! Group 12: the values of the FAT's cells.

use super::{Break, rule};
use crate::images::Sample;
use crate::number::*;
use crate::random::Random;

pub const BREAKS: &[Break] = &[
    rule(12, "cell of a free sector neither number, end nor free", free_sector),
    rule(12, "cell in a chain not a number below N", chained_sector),
    rule(12, "first cell from N on not free", |s, r| {
        let n = s.layout.sectors;
        past(s, r, n)
    }),
    rule(12, "last cell from N on not free", |s, r| {
        let last = s.layout.cell_count() - 1;
        past(s, r, last)
    }),
    rule(12, "a cell from N on not free", any_past),
];

/// A value that no cell below N may have.
fn outside(s: &Sample, r: &mut Random) -> u32 {
    let n = s.layout.sectors;
    let cells = s.layout.cell_count().max(n);
    r.pick(&[n, n + 1, cells, 0xFFFF_FFFB, 0xFFFF_FFFA, 0x8000_0000, 0x0100_0000, n.max(0x0001_0000)])
}

fn free_sector(s: &mut Sample, r: &mut Random) -> Option<()> {
    let &free = r.some(&s.layout.free)?;
    let value = outside(s, r);
    s.set_cell(free, value);
    Some(())
}

fn chained_sector(s: &mut Sample, r: &mut Random) -> Option<()> {
    let large = s.large(r).map(|node| node.units).unwrap_or_default();
    let chained = [&s.layout.directory[..], &s.layout.mini_fat, &s.layout.mini_stream, &large].concat();
    let value = outside(s, r);
    s.set_cell(r.pick(&chained), value);
    Some(())
}

fn past(s: &mut Sample, r: &mut Random, cell: u32) -> Option<()> {
    let n = s.layout.sectors;
    (n <= cell && cell < s.layout.cell_count()).then_some(())?;
    s.set_cell(cell, r.pick(&[0, END, FATSECT, DIFSECT, n - 1, n, cell, 0xFFFF_FFFB, 0x7FFF_FFFF]));
    Some(())
}

fn any_past(s: &mut Sample, r: &mut Random) -> Option<()> {
    let n = s.layout.sectors;
    let cell = n + r.below(s.layout.cell_count() - n);
    past(s, r, cell)
}
