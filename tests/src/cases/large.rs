//! Images of up to 67,108,864 bytes: plans that the benchmark shares, and cases from random ones.

use super::Case;
use super::small::Cases;
use crate::geometry::{GREATEST_IMAGE, Geometry, V3, V4};
use crate::images::Sample;
use crate::images::names;
use crate::images::plan::*;
use crate::random::Random;
use crate::volume::tables::difat_needed;

pub const MIB_8: usize = 8_388_608;
pub const MIB_64: usize = GREATEST_IMAGE;
/// The sectors behind the header of an image of version 3 of 8 MiB, and of one of 64 MiB, which is the longest.
pub const OF_8_MIB: u32 = V3.count(MIB_8);
pub const OF_64_MIB: u32 = V3.count(MIB_64);
/// Images of 8 MiB, and then some that are longer; first all of version 3, then as many of version 4.
const IMAGES: u64 = 12;
const LONGER_IMAGES: u64 = 4;
pub const ALL_IMAGES: u64 = 2 * (IMAGES + LONGER_IMAGES);
const SHARING: u64 = 10;

/// The most objects in so many sectors: entries in each that is no table, one of them the root's.
pub fn most_objects(g: Geometry, sectors: u32) -> usize {
    let fat = sectors.div_ceil(g.cells as u32) as u64;
    g.entries * (sectors as u64 - fat - difat_needed(g, fat)) as usize - 1
}

/// Streams of these sizes by turns, `count` of them, in storages of 100.
pub fn many_streams(g: Geometry, sectors: u32, count: usize, sizes: &[u32]) -> Plan {
    let mut plan = Plan { sectors: Some(sectors), ..Plan::of(g) };
    let mut storage = 0;
    for i in 0..count {
        if i % 100 == 0 {
            storage = plan.add(0, names::of(&format!("storage {i:05}")), None);
        }
        plan.add(storage, names::of(&format!("stream {i:05}")), Some(sizes[i % sizes.len()]));
    }
    plan
}

/// Empty streams in the root, `count` of them, with names of 31 units that differ at their ends.
pub fn many_entries(g: Geometry, sectors: u32, count: usize, shape: Shape) -> Plan {
    let mut plan = Plan { sectors: Some(sectors), shape, ..Plan::of(g) };
    for i in 0..count {
        plan.add(0, names::of(&format!("a long name with number {i:07}")), Some(0));
    }
    plan
}

/// Storages each inside the one before.
pub fn nested(g: Geometry, sectors: u32, count: usize) -> Plan {
    let mut plan = Plan { sectors: Some(sectors), ..Plan::of(g) };
    for inside in 0..count {
        plan.add(inside, names::of("storage"), None);
    }
    plan
}

fn random_plan(r: &mut Random, number: u64) -> Plan {
    let (g, long) = kind(number);
    let shape = r.pick(&[Shape::Random, Shape::Balanced, Shape::RightOnly, Shape::LeftOnly, Shape::ZigZag]);
    let mut plan = if long { longer(r, g, number, shape) } else { of_8_mib(r, g, number, shape) };
    plan.red_once_in = r.below(3);
    plan.rubbish_once_in = r.below(3);
    plan.scattered_entries = r.one_in(2);
    plan.mixed_parts = r.one_in(2);
    plan.order = r.pick(&[Order::Rising, Order::Falling, Order::Scattered]);
    plan.mini_order = r.pick(&[Order::Rising, Order::Scattered]);
    plan.fill = r.pick(&[Fill::Noise, Fill::Byte(0xFF)]);
    plan
}

/// The version of the image of this number, and whether it is longer than 8 MiB.
fn kind(number: u64) -> (Geometry, bool) {
    let g = if number < IMAGES + LONGER_IMAGES { V3 } else { V4 };
    (g, number % (IMAGES + LONGER_IMAGES) >= IMAGES)
}

fn of_8_mib(r: &mut Random, g: Geometry, number: u64, shape: Shape) -> Plan {
    let sectors = g.count(MIB_8);
    let most = most_objects(g, sectors);
    match number % 6 {
        0 => many_streams(g, sectors, 20_000, &[1, 64, 65, 200, 0, 300]),
        1 => many_streams(g, sectors, 8, &[1_000_000, 4096, 900_001, 513]),
        2 => many_entries(g, sectors, r.pick(&[20_000, 60_000, most]), shape),
        3 => nested(g, sectors, r.pick(&[20_000, 60_000, most])),
        4 => many_streams(g, sectors, 1_200, &[5_000, 4095, 4096, 6_000]),
        _ => many_streams(g, r.between(sectors - sectors / 7, sectors), 500, &[100, 9_000]),
    }
}

/// Up to 64 MiB.
fn longer(r: &mut Random, g: Geometry, number: u64, shape: Shape) -> Plan {
    let sectors = g.count(MIB_64);
    let most = most_objects(g, sectors);
    match number % LONGER_IMAGES {
        0 => many_streams(g, sectors, 150_000, &[1, 64, 65, 200, 0, 300]),
        1 => {
            let sectors = r.between(sectors - sectors / 1_000, sectors);
            many_streams(g, sectors, 9, &[20_000_000, 4096, 11_000_001, 513, 100_000])
        }
        2 => many_entries(g, sectors, r.pick(&[300_000, most]), shape),
        _ => many_streams(g, r.between(g.count(MIB_8) + 1, sectors), 500, &[100, 9_000]),
    }
}

/// Ten cases in a row share one image: valid, of a wrong length, broken and mutated. A longer image has fewer.
pub fn run(cases: &mut Cases, seed: u64, number: u64, then: &mut dyn FnMut(u64, Case)) {
    let first = number * SHARING;
    let mut random = Random::of(!seed, number);
    let plan = random_plan(&mut random, number);
    let sample = Sample::build(&plan, &mut random);
    let (_, long) = kind(number);
    let roles: &[u64] = if long { &[0, 1, 2, 3, 9, 10] } else { &[0, 1, 2, 3, 4, 5, 6, 9, 10, 11] };
    for (i, &role) in roles.iter().enumerate() {
        let case = cases.changed(sample.clone(), role, &mut random);
        then(first + i as u64, case);
    }
}
