//! Images broken in each group, where a validator comes early and where it comes late.

use super::good::entries;
use super::{Make, Scale, make};
use crate::breaks::edit::*;
use crate::cases::large::many_streams;
use crate::geometry::V3;
use crate::images::Sample;
use crate::images::plan::Shape;
use crate::number::*;

pub const MAKES: &[Make] = &[
    make(0, "base of those broken below", &[], |s| base(s).image),
    make(10, "broken in 10: signature", &[], |s| with(s, |s| s.image[0] = 0)),
    make(10, "broken in 10: last byte of the header", &[], |s| with(s, late_in_header)),
    make(11, "broken in 11: count of FAT sectors", &[], |s| with(s, |s| s.put(44, 0))),
    make(11, "broken in 11: FATSECT on the last sector", &[], |s| {
        with(s, |s| s.set_cell(s.layout.sectors - 1, FATSECT))
    }),
    make(12, "broken in 12: first cell but the FAT's", &[], |s| {
        with(s, |s| s.set_cell(s.layout.directory[0], s.layout.sectors))
    }),
    make(12, "broken in 12: last cell", &[], |s| with(s, |s| s.set_cell(s.layout.cell_count() - 1, 0))),
    make(13, "broken in 13: start of the directory's chain", &[], |s| with(s, |s| s.put(48, END))),
    make(13, "broken in 13: end of the directory's chain", &[], |s| {
        with(s, |s| s.set_cell(*s.layout.directory.last().unwrap(), FREE))
    }),
    make(14, "broken in 14: first entry", &[], |s| with(s, |s| s.set_field(0, LEFT, 1))),
    make(14, "broken in 14: last entry", &[], |s| with(s, |s| s.set_field(s.layout.entry_count() - 1, SIZE, 1 << 31))),
    make(15, "broken in 15: first object's colour", &[], |s| with(s, first_top_red)),
    make(15, "broken in 15: last object's link", &[], |s| with(s, |s| s.set_field(last_stream(s), RIGHT, 0))),
    make(15, "# entries, first names out of order", &[60_000], |s| with_names(s, |s| exchange_ends(s, 1))),
    make(15, "# entries, last names out of order", &[60_000], |s| {
        with_names(s, |s| exchange_ends(s, s.layout.nodes.len() - 2))
    }),
    make(16, "broken in 16: start of the mini FAT's chain", &[], |s| with(s, |s| s.put(60, END))),
    make(16, "broken in 16: last mini cell", &[], |s| {
        with(s, |s| s.set_mini_cell(s.layout.mini_cell_count() - 1, s.layout.minis))
    }),
    make(17, "broken in 17: first stream", &[], |s| with(s, |s| s.set_field(first_stream(s), START, FREE))),
    make(17, "broken in 17: last stream", &[], |s| with(s, |s| s.set_field(last_stream(s), START, FREE))),
    make(18, "broken in 18: two streams on the first chain", &[], |s| with(s, share_first)),
    make(18, "broken in 18: last free sector not free", &[], |s| {
        with(s, |s| s.set_cell(*s.layout.free.last().unwrap(), END))
    }),
];

/// In version 4 not so many fit.
fn base(s: Scale) -> Sample {
    let count = if s.geometry == V3 { 8_000 } else { 6_000 };
    let sizes = [300, 64, 400, 100, 65, 0, 1, 5_000, 200, 64];
    s.build(many_streams(s.geometry, s.sectors(), s.many(count), &sizes))
}

fn with(s: Scale, change: fn(&mut Sample)) -> Vec<u8> {
    changed(base(s), change)
}

fn with_names(s: Scale, change: fn(&mut Sample)) -> Vec<u8> {
    changed(s.build(entries(s, Shape::Balanced)), change)
}

pub fn changed(mut sample: Sample, change: fn(&mut Sample)) -> Vec<u8> {
    change(&mut sample);
    sample.image
}

/// In version 3 the last that is judged here is the cutoff.
fn late_in_header(s: &mut Sample) {
    if s.layout.geometry == V3 { s.put(56, 4_097) } else { s.image[4_095] = 1 }
}

fn first_top_red(s: &mut Sample) {
    let at = s.layout.entry(s.layout.nodes[0].links.child);
    s.image[at + COLOUR] = 0;
}

/// Two names one after the other that differ at their ends change places.
fn exchange_ends(s: &mut Sample, i: usize) {
    let [one, other] = [i, i + 1].map(|i| s.layout.nodes[i].clone());
    rename(s, one.entry, &other.name);
    rename(s, other.entry, &one.name);
}

/// The second stream of the first one's size gets its chain.
fn share_first(s: &mut Sample) {
    let mut same = s.layout.nodes.iter().filter(|node| node.size == Some(300));
    let (first, second) = (same.next().expect("a stream"), same.next().expect("another"));
    let (entry, start) = (second.entry, first.units[0]);
    s.set_field(entry, START, start);
}

fn first_stream(s: &Sample) -> u32 {
    s.layout.nodes.iter().find(|node| node.size.is_some()).expect("there are streams").entry
}

fn last_stream(s: &Sample) -> u32 {
    s.layout.nodes.last().expect("there are streams").entry
}
