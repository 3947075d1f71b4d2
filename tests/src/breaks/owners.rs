//! Group 18: units with two owners, and units that are taken but have none. All chains stay chains of the right length.

use super::edit::*;
use super::{Break, rule};
use crate::images::Sample;
use crate::images::layout::Node;
use crate::images::write::is_large;
use crate::number::*;
use crate::random::Random;

pub const BREAKS: &[Break] = &[
    rule(18, "owners: two large streams with one chain", |s, r| {
        let a = s.large(r)?;
        let b = s.large(r)?;
        same_chain(s, a, b)
    }),
    rule(18, "owners: two small streams with one chain", |s, r| {
        let a = s.small(r)?;
        let b = s.small(r)?;
        same_chain(s, a, b)
    }),
    rule(18, "owners: two large streams end in one sector", |s, r| {
        let a = s.large(r)?;
        let b = s.large(r)?;
        stream_into(s, a, &b.units)
    }),
    rule(18, "owners: two small streams end in one mini sector", |s, r| {
        let a = s.small(r)?;
        let b = s.small(r)?;
        stream_into(s, a, &b.units)
    }),
    rule(18, "owners: stream ends in the directory", |s, r| {
        let a = s.large(r)?;
        let part = s.layout.directory.clone();
        stream_into(s, a, &part)
    }),
    rule(18, "owners: stream ends in the mini FAT", |s, r| {
        let a = s.large(r)?;
        let part = s.layout.mini_fat.clone();
        stream_into(s, a, &part)
    }),
    rule(18, "owners: stream ends in the mini stream", |s, r| {
        let a = s.large(r)?;
        let part = s.layout.mini_stream.clone();
        stream_into(s, a, &part)
    }),
    rule(18, "owners: mini stream ends in a stream", |s, r| {
        let a = s.large(r)?;
        mini_stream_into(s, &a.units)
    }),
    rule(18, "owners: mini stream ends in the directory", |s, _| {
        let part = s.layout.directory.clone();
        mini_stream_into(s, &part)
    }),
    rule(18, "owners: mini stream ends in the mini FAT", |s, _| {
        let part = s.layout.mini_fat.clone();
        mini_stream_into(s, &part)
    }),
    rule(18, "owners: mini FAT ends in the directory", mini_fat_into_directory),
    rule(18, "owners: a sector of nobody not free", lost_sector),
    rule(18, "owners: a mini sector of nobody not free", lost_mini_sector),
    rule(18, "owners: a stream made empty, its chain left", lost_chain),
    rule(18, "owners: a free sector leads into a chain", stray_sector),
    rule(18, "owners: a free mini sector leads into a chain", stray_mini_sector),
];

/// The first stream gets the chain and size of the second, and gives its own units free.
fn same_chain(s: &mut Sample, one: Node, other: Node) -> Option<()> {
    (one.entry != other.entry).then_some(())?;
    for &unit in &one.units {
        s.set_unit(is_large(&one), unit, FREE);
    }
    s.set_field(one.entry, START, other.units[0]);
    s.set_field(one.entry, SIZE, other.size?);
    Some(())
}

/// The stream's last unit is given free, and the other chain's last unit takes its place.
fn stream_into(s: &mut Sample, stream: Node, other: &[u32]) -> Option<()> {
    let (&own, &shared) = (stream.units.last()?, other.last()?);
    (own != shared).then_some(())?;
    s.set_unit(is_large(&stream), own, FREE);
    match stream.units.len() {
        1 => s.set_field(stream.entry, START, shared),
        count => s.set_unit(is_large(&stream), stream.units[count - 2], shared),
    }
    Some(())
}

fn mini_stream_into(s: &mut Sample, other: &[u32]) -> Option<()> {
    let (&own, &shared) = (s.layout.mini_stream.last()?, other.last()?);
    s.set_cell(own, FREE);
    match s.layout.mini_stream.len() {
        1 => s.set_field(0, START, shared),
        count => s.set_cell(s.layout.mini_stream[count - 2], shared),
    }
    Some(())
}

/// A sector of blank entries read as cells is zeros and free, which are right where all of the sector's cells are below K.
/// So the last mini FAT sector can be replaced if none of its mini sectors is a stream's.
fn mini_fat_into_directory(s: &mut Sample, _: &mut Random) -> Option<()> {
    let (&own, &shared) = (s.layout.mini_fat.last()?, s.layout.directory.last()?);
    let (entries, minis) = (s.layout.entry_count(), s.layout.mini_cell_count());
    let (last_entries, last_minis) = (s.layout.geometry.entries as u32, s.layout.geometry.cells as u32);
    let blank = (entries - last_entries..entries).all(|entry| s.layout.blanks.contains(&entry));
    let unused = (minis - last_minis..minis).all(|m| s.layout.free_minis.contains(&m));
    (blank && unused).then_some(())?;
    s.set_cell(own, FREE);
    match s.layout.mini_fat.len() {
        1 => s.put(60, shared),
        count => s.set_cell(s.layout.mini_fat[count - 2], shared),
    }
    Some(())
}

/// Its cell ends a chain of its own, or is a ring.
fn lost_sector(s: &mut Sample, r: &mut Random) -> Option<()> {
    let &free = r.some(&s.layout.free)?;
    s.set_cell(free, r.pick(&[END, free]));
    Some(())
}

fn lost_mini_sector(s: &mut Sample, r: &mut Random) -> Option<()> {
    let &free = r.some(&s.layout.free_minis)?;
    s.set_mini_cell(free, r.pick(&[END, free]));
    Some(())
}

fn lost_chain(s: &mut Sample, r: &mut Random) -> Option<()> {
    let stream = s.node(r, |node| !node.units.is_empty())?;
    s.set_field(stream.entry, START, END);
    s.set_field(stream.entry, SIZE, 0);
    Some(())
}

fn stray_sector(s: &mut Sample, r: &mut Random) -> Option<()> {
    let &free = r.some(&s.layout.free)?;
    s.set_cell(free, r.below(s.layout.sectors));
    Some(())
}

fn stray_mini_sector(s: &mut Sample, r: &mut Random) -> Option<()> {
    let &free = r.some(&s.layout.free_minis)?;
    s.set_mini_cell(free, r.below(s.layout.minis));
    Some(())
}
