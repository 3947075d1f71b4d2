//! Changes of length over the cutoff (W-201).

use crate::breaks::edit::{SIZE, START, UPPER};
use crate::calls::{CROSSINGS, Call, perform};
use crate::cases::cutoff::cases;
use crate::compare::Tally;
use crate::geometry::{Geometry, V3, VERSIONS};
use crate::images::plan::{Fill, Order, Plan};
use crate::images::{Sample, names};
use crate::number::*;
use crate::random::Random;
use crate::volume::work_needed;

#[test]
fn cases_of_the_cutoff() {
    let mut tally = Tally::new();
    for (number, case) in VERSIONS.into_iter().flat_map(cases).enumerate() {
        assert!(tally.run(&format!("case {number}"), &case).is_some());
    }
    tally.ask_for_every_answer(&CROSSINGS[..2]);
    assert!(tally.passed > 2_000 && tally.failed == 0, "{}", tally.passed);
}

/// One stream of this size in an image full of noise.
fn one_stream(g: Geometry, size: u32) -> Sample {
    let noise = Plan { fill: Fill::Noise, rubbish_once_in: 1, free: 12, spare_minis: 70, ..Plan::of(g) };
    let mut plan = Plan { order: Order::Scattered, mini_order: Order::Scattered, mixed_parts: true, ..noise };
    plan.add(0, names::of("log"), Some(size));
    Sample::build(&plan, &mut Random::of(3, 3))
}

/// Where the units start: sectors, or mini sectors.
fn places(sample: &Sample, units: &[u32], small: bool) -> Vec<usize> {
    let (g, layout) = (sample.layout.geometry, &sample.layout);
    let mini = |m: u32| g.place(layout.mini_stream[m as usize / g.minis]) + m as usize % g.minis * 64;
    units.iter().map(|&unit| if small { mini(unit) } else { g.place(unit) }).collect()
}

/// The image after the change, from the layout: in the lowest free units, so many, the bytes kept and zeros; the cells of both chains;
/// start, and all of the size.
fn due(sample: &Sample, new: u32, count: usize) -> Vec<u8> {
    let (layout, node) = (&sample.layout, &sample.layout.nodes[1]);
    let small = new < 4_096;
    let mut units = if small { layout.free_minis.clone() } else { layout.free.clone() };
    units.sort();
    units.truncate(count);

    let sizes = [layout.geometry.sector, 64];
    let (unit, old_unit) = (sizes[small as usize], sizes[!small as usize]);
    let old_places = places(sample, &node.units, !small);
    let mut bytes: Vec<u8> = old_places.iter().flat_map(|&place| &sample.image[place..][..old_unit]).copied().collect();
    bytes.truncate(new.min(node.size.expect("a stream")) as usize);
    bytes.resize(count * unit, 0);

    let mut due = sample.clone();
    for (place, part) in places(sample, &units, small).into_iter().zip(bytes.chunks(unit)) {
        due.image[place..][..unit].copy_from_slice(part);
    }
    for (i, &unit) in units.iter().enumerate() {
        due.set_unit(!small, unit, units.get(i + 1).copied().unwrap_or(END));
    }
    node.units.iter().for_each(|&unit| due.set_unit(small, unit, FREE));
    for (field, value) in [(START, units[0]), (SIZE, new), (UPPER, 0)] {
        due.set_field(node.entry, field, value);
    }
    due.image
}

/// The independent call leaves that image.
fn crossed(g: Geometry, old: u32, new: u32, count: usize) {
    let sample = one_stream(g, old);
    let mut image = sample.image.clone();
    let (call, work_len) = (Call::SetLength { path: names::of("log"), length: new as u64 }, work_needed(image.len()));
    assert_eq!(perform(&call, &mut image, work_len).answer, 0, "{old} to {new}");
    assert!(image == due(&sample, new, count), "{old} to {new}");
}

#[test]
fn bytes_of_a_crossing() {
    for g in VERSIONS {
        let (eight, nine) = if g == V3 { (8, 9) } else { (1, 2) };
        for old in [1, 64, 100, 4_095] {
            crossed(g, old, 4_096, eight);
            crossed(g, old, 4_097, nine);
        }
        for old in [4_096, 4_097, 8_192, 20_000] {
            for (new, count) in [(1, 1), (64, 1), (65, 2), (4_032, 63), (4_033, 64), (4_095, 64)] {
                crossed(g, old, new, count);
            }
        }
    }
}
