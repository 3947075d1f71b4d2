//! Large images: storages each inside the one before, whose listing is longer than any buffer; many streams; and many siblings.

use super::Case;
use super::large::{MIB_8, MIB_64, many_entries, many_streams, most_objects, nested};
use crate::calls::{Call, list};
use crate::draw;
use crate::geometry::{Geometry, VERSIONS};
use crate::images::plan::{Fill, Order, Plan, Shape};
use crate::images::{Sample, names};
use crate::model::Model;
use crate::random::Random;
use crate::volume::{Volume, work_needed};
use std::rc::Rc;

/// With so many storages the listing is 10 bytes longer than 2^32.
const JUST_ABOVE: usize = 32_767;

pub fn run(seed: u64, then: &mut dyn FnMut(u64, Case)) {
    let mut number = 0;
    let mut next = |case| {
        then(number, case);
        number += 1;
    };
    for (i, g) in VERSIONS.into_iter().enumerate() {
        let (short, long) = (g.count(MIB_8), g.count(MIB_64));
        let (most, most_of_all) = (most_objects(g, short), most_objects(g, long));
        for (sectors, count) in [(short, 2_000), (short, JUST_ABOVE), (short, most), (long, most_of_all)] {
            let Sample { image, layout } = Sample::build(&nested(g, sectors, count), &mut Random::of(seed, 0));
            finds(&image, count).into_iter().chain(lists(&image)).for_each(&mut next);
            innermost(&image, count, !layout.blanks.is_empty()).into_iter().for_each(&mut next);
        }
        let mut r = Random::of(seed, 1 + i as u64);
        streams(many_streams(g, short, 5_000, &[1, 64, 65, 200, 0]), 20, &mut r, &mut next);
        streams(many_streams(g, short, 40, &[130_000, 4096, 513, 200_001, 4095]), 20, &mut r, &mut next);
        streams(many_streams(g, long, 60, &[2_000_000, 4096, 513, 1_000_001, 4095]), 8, &mut r, &mut next);
        fills(g, &mut r).into_iter().for_each(&mut next);
        for shape in [Shape::Random, Shape::Balanced, Shape::RightOnly, Shape::LeftOnly, Shape::ZigZag] {
            siblings(g, shape, &mut r, &mut next);
        }
    }
}

fn on(image: &[u8], call: Call, expected: u32) -> Case {
    let work_len = work_needed(image.len());
    Case { call, ..Case::new("large", image.to_vec(), work_len, Some(expected)) }
}

/// The path of so many storages, each inside the one before.
fn path(names: usize) -> Vec<u16> {
    "STORAGE/".repeat(names).trim_end_matches('/').encode_utf16().collect()
}

/// The deepest storage, and one that is not in it.
fn finds(image: &[u8], count: usize) -> Vec<Case> {
    let find = |names: usize, answer| on(image, Call::Find { path: path(names) }, answer);
    vec![find(count, 0), find(count - 1, 0), find(count + 1, 21), find(2 * count, 21)]
}

/// One more in the deepest storage, if there is an entry for it; and that storage itself removed.
fn innermost(image: &[u8], count: usize, blank: bool) -> Vec<Case> {
    let create = |names: usize, answer| on(image, Call::CreateStream { path: path(names) }, answer);
    let remove = |names: usize, answer| on(image, Call::Remove { path: path(names) }, answer);
    vec![
        create(count + 1, if blank { 0 } else { 30 }),
        create(count, 29),
        create(count + 2, 21),
        remove(count, 0),
        remove(count - 1, 28),
        remove(count + 1, 21),
    ]
}

/// Out buffers too short, also one that is long enough if only 32 bits of the listing's length are kept.
fn lists(image: &[u8]) -> Vec<Case> {
    let volume = Volume::open(image).expect("a valid image");
    let need = list::length(&volume, &list::objects(&volume));
    let mut lengths = vec![(0, 27), (65_536, 27)];
    match need >> 32 {
        0 => lengths.extend([(need, 0), (need - 1, 27), (need + 9, 0)]),
        1 => lengths.extend([(need - (1 << 32), 27), (need - (1 << 32) + 1, 27)]),
        _ => {}
    }
    lengths.into_iter().map(|(len, answer)| on(image, Call::List { out: vec![0x55; len as usize] }, answer)).collect()
}

/// So many random calls, each on the first image.
fn streams(plan: Plan, calls: u32, r: &mut Random, next: &mut dyn FnMut(Case)) {
    let plan = Plan { fill: Fill::Noise, order: Order::Scattered, ..plan };
    let sample = Sample::build(&plan, r);
    let model = Rc::new(Model::of(&sample));
    for _ in 0..calls {
        let call = draw::call(&model, r);
        let case = Case::new("large", sample.image.clone(), work_needed(sample.image.len()), None);
        next(Case { call, model: Some(model.clone()), ..case });
    }
}

/// A stream grown to all free sectors of 8 MiB, or one more, and cut.
fn fills(g: Geometry, r: &mut Random) -> Vec<Case> {
    let path = names::of("log");
    let mut cases = Vec::new();
    for size in [0, 4_096, 8_000_000] {
        let sectors = Some(g.count(MIB_8));
        let mut plan = Plan { fill: Fill::Noise, sectors, order: Order::Scattered, ..Plan::of(g) };
        plan.add(0, path.clone(), Some(size));
        let sample = Sample::build(&plan, r);
        let model = Rc::new(Model::of(&sample));
        let sector = g.sector as u64;
        let most = (model.free().sectors + model.need(size as u64).sectors) * sector;
        for (length, answer) in [(most, 0), (most + 1, 26), (most - sector + 1, 0), (4_100, 0), (0, 0)] {
            let case = on(&sample.image, Call::SetLength { path: path.clone(), length }, answer);
            cases.push(Case { model: Some(model.clone()), ..case });
        }
    }
    cases
}

/// One is created at either end of 20,000 siblings and between them, and removed from there; in a tree that may be as deep as that.
fn siblings(g: Geometry, shape: Shape, r: &mut Random, next: &mut dyn FnMut(Case)) {
    const COUNT: usize = 20_000;
    let sectors = g.count(MIB_8) / 2;
    let plan =
        Plan { red_once_in: 2, scattered_entries: true, spare_directory: 1, ..many_entries(g, sectors, COUNT, shape) };
    let sample = Sample::build(&plan, r);
    let model = Rc::new(Model::of(&sample));
    let name = |i: usize, end: &str| names::of(&format!("a long name with number {i:06}{end}"));
    let top = sample.layout.nodes.iter().find(|node| node.links.top).expect("one is the top");
    let created = [names::of("a"), name(COUNT / 20, "x"), name(999_999, "x")].map(|path| Call::CreateStream { path });
    let removed = [name(0, "0"), name(COUNT / 20, "0"), name((COUNT - 1) / 10, "9"), top.name.clone()];
    for call in created.into_iter().chain(removed.map(|path| Call::Remove { path })) {
        let case = on(&sample.image, call, 0);
        next(Case { model: Some(model.clone()), ..case });
    }
}
