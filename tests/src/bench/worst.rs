//! Images that make a validator slow which follows every chain of every stream, or recurses, or waits for memory.

use super::broken::changed;
use super::good::{all_scattered, entries, one_stream, scattered};
use super::{Make, Scale, make};
use crate::breaks::edit::*;
use crate::cases::large::*;
use crate::images::Sample;
use crate::images::names;
use crate::images::plan::*;

pub const MAKES: &[Make] = &[
    make(18, "# streams on one long chain", &[30_000], |s| changed(one_and_many(s, long(s)), share)),
    make(17, "the same, the last one's size a sector off", &[], |s| {
        changed(one_and_many(s, long(s)), |s| {
            share(s);
            let size = s.layout.nodes[1].size.unwrap() + s.layout.geometry.sector as u32;
            s.set_field(s.layout.nodes.last().unwrap().entry, SIZE, size);
        })
    }),
    make(18, "# streams from places along one chain", &[30_000], |s| changed(one_and_many(s, long(s)), share_tails)),
    make(18, "# streams on one mini chain", &[30_000], |s| changed(one_and_many(s, 4_095), share)),
    make(0, "# entries, right sides only", &[60_000], |s| s.image(entries(s, Shape::RightOnly))),
    make(0, "# entries, left sides only", &[60_000], |s| s.image(entries(s, Shape::LeftOnly))),
    make(0, "# entries, zigzag", &[60_000], |s| s.image(entries(s, Shape::ZigZag))),
    make(0, "# entries, right sides only, all scattered", &[60_000], |s| {
        s.image(all_scattered(entries(s, Shape::RightOnly)))
    }),
    make(0, "# entries, zigzag, all scattered", &[60_000], |s| s.image(all_scattered(entries(s, Shape::ZigZag)))),
    make(0, "# entries, the last with a chain, sectors scattered", &[60_000], |s| s.image(scattered(last_with_chain(s)))),
    make(13, "ring in the directory's chain", &[], |s| changed(right_only(s), |s| ring(s, |s| &s.layout.directory))),
    make(15, "ring of siblings", &[], |s| {
        changed(right_only(s), |s| {
            let (first, last) = (s.layout.nodes[1].entry, s.layout.nodes.last().unwrap().entry);
            s.set_field(last, RIGHT, first);
        })
    }),
    make(16, "ring in the mini FAT's chain", &[], |s| changed(minis(s), |s| ring(s, |s| &s.layout.mini_fat))),
    make(16, "ring in the mini stream's chain", &[], |s| changed(minis(s), |s| ring(s, |s| &s.layout.mini_stream))),
    make(17, "ring in a stream's chain", &[], |s| {
        changed(s.build(one_stream(s)), |s| ring(s, |s| &s.layout.nodes.last().unwrap().units))
    }),
    make(17, "ring in the last mini chain", &[], |s| {
        changed(minis(s), |s| {
            let units = s.layout.nodes.last().unwrap().units.clone();
            s.set_mini_cell(*units.last().unwrap(), units[0]);
        })
    }),
];

fn right_only(s: Scale) -> Sample {
    s.build(entries(s, Shape::RightOnly))
}

/// Empty streams, and a stream of 4,096 bytes as the last object.
fn last_with_chain(s: Scale) -> Plan {
    let mut plan = entries(s, Shape::Balanced);
    plan.objects.last_mut().expect("an object").size = Some(4_096);
    plan
}

/// The bytes of the one chain.
fn long(s: Scale) -> u32 {
    s.many(8_000 * 512) as u32
}

/// Empty streams, and a stream of this size as the first object.
fn one_and_many(s: Scale, size: u32) -> Sample {
    let mut plan = many_entries(s.geometry, s.sectors(), s.many(30_000), Shape::Balanced);
    plan.objects[1].size = Some(size);
    s.build(plan)
}

/// Every stream gets the first one's chain and size.
fn share(s: &mut Sample) {
    let first = s.layout.nodes[1].clone();
    for i in 2..s.layout.nodes.len() {
        let entry = s.layout.nodes[i].entry;
        s.set_field(entry, START, first.units[0]);
        s.set_field(entry, SIZE, first.size.unwrap());
    }
}

/// Every stream starts somewhere in the first half of the first one's chain, with the size that fits.
fn share_tails(s: &mut Sample) {
    let units = s.layout.nodes[1].units.clone();
    for i in 2..s.layout.nodes.len() {
        let (entry, from) = (s.layout.nodes[i].entry, i % (units.len() / 2));
        s.set_field(entry, START, units[from]);
        s.set_field(entry, SIZE, ((units.len() - from) * s.layout.geometry.sector) as u32);
    }
}

/// Streams of 64 mini sectors each.
fn minis(s: Scale) -> Sample {
    let mut plan = many_streams(s.geometry, s.sectors(), s.many(1_700), &[4_095]);
    plan.add(0, names::of("last"), Some(4_095));
    s.build(plan)
}

/// The chain's last cell leads back to its first sector.
fn ring(s: &mut Sample, chain: fn(&Sample) -> &Vec<u32>) {
    let (first, last) = (chain(s)[0], *chain(s).last().unwrap());
    s.set_cell(last, first);
}
