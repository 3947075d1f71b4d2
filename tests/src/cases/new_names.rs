//! Names of objects that are created (W-203): of each length, with units beside those that are refused, in either case, and in any order.

use super::names::{with, with_rows};
use super::objects::{calls, create, create_storage, fill, remove};
use super::{Case, in_a_row};
use crate::calls::Call;
use crate::geometry::Geometry;
use crate::images::letters::{self, IN_ORDER, UNLIKE};
use crate::images::names::{self, BESIDE};
use crate::images::plan::{Fill, Plan, Shape};
use crate::images::{Sample, write};
use crate::random::Random;

pub fn cases(g: Geometry) -> Vec<Case> {
    let mut cases = Vec::new();
    new_names(g, &mut cases);
    equal_names(g, &mut cases);
    for seed in 0..3 {
        letters_in_order(g, seed, &mut cases);
    }
    cases
}

/// Storages Site, which has a stream, and Void; one entry is blank.
fn small(g: Geometry) -> Sample {
    let mut plan = Plan { fill: Fill::Noise, ..Plan::of(g) };
    let site = plan.add(0, names::of("Site"), None);
    plan.add(0, names::of("Void"), None);
    plan.add(site, names::of("log"), Some(0));
    fill(&mut plan, 1);
    Sample::build(&plan, &mut Random::of(0, 0))
}

/// Names of each length, and with the units beside those that no name has; found by their path, and removed again.
fn new_names(g: Geometry, cases: &mut Vec<Case>) {
    let sample = small(g);
    let lengths = (1..=31).map(|units| vec![b'n' as u16; units]);
    for name in
        with(&BESIDE).into_iter().chain(lengths).chain([names::of("Root Entry"), vec![0xD800], vec![0xFFFF; 31]])
    {
        for before in ["", "Site/", "Void/"] {
            let path = || [names::of(before), name.clone()].concat();
            let [stream, storage, remove] = calls(&path());
            let find = Call::Find { path: path() };
            for created in [stream, storage] {
                let rest = [(created.clone(), 29), (find.clone(), 0), (remove.clone(), 0), (find.clone(), 21)];
                cases.extend(in_a_row("objects", &sample, [vec![(created, 0)], rest.to_vec()].concat()));
            }
        }
    }
    // A longer name leaves nothing behind.
    let calls = ["n".repeat(31), "m".to_string(), "nm".to_string()]
        .into_iter()
        .flat_map(|name| [(create(&name), 0), (create_storage("more"), 30), (remove(&name), 0)]);
    cases.extend(in_a_row("objects", &sample, calls.collect()));
}

/// A name in the other case is the same name (W-211), and one that only looks so is another.
fn equal_names(g: Geometry, cases: &mut Vec<Case>) {
    let pairs = letters::pairs().map(|pair| (pair, true)).chain(UNLIKE.into_iter().map(|pair| (pair, false)));
    for ((one, other), equal) in pairs {
        for (old, new) in [(one, other), (other, one)] {
            let mut plan = Plan { fill: Fill::Noise, ..Plan::of(g) };
            plan.add(0, vec![old, b'x' as u16], Some(70));
            let sample = Sample::build(&plan, &mut Random::of(0, 0));
            let path = || vec![new, b'X' as u16];
            let [stream, _, remove] = calls(&path());
            cases.push(with_rows(&sample, stream, if equal { 29 } else { 0 }));
            cases.push(with_rows(&sample, remove, if equal { 0 } else { 21 }));
        }
    }
}

/// Names of one unit, which stand in order, are created in any order and removed in another. The root is named like one of them.
fn letters_in_order(g: Geometry, seed: u64, cases: &mut Vec<Case>) {
    let mut random = Random::of(seed, 1);
    let mut plan = Plan { fill: Fill::Noise, shape: Shape::Random, spare_directory: 14, ..Plan::of(g) };
    plan.add(0, vec![IN_ORDER[25]], None);
    let mut sample = Sample::build(&plan, &mut random);
    let root = sample.layout.entry(0);
    write::name(&mut sample.image, root, &[IN_ORDER[3]]);
    let mut units: Vec<u16> = IN_ORDER.to_vec();
    if seed > 0 {
        random.shuffle(&mut units);
    }
    let path = |unit: u16| vec![IN_ORDER[25], b'/' as u16, unit];
    let created = |unit: u16| calls(&path(unit))[unit as usize % 2].clone();
    let mut list: Vec<(Call, u32)> = units.iter().map(|&unit| (created(unit), 0)).collect();
    list.push((Call::List { out: vec![b'#'; 2_000] }, 0));
    random.shuffle(&mut units);
    let respelled = |unit: u16| letters::other_case(unit).unwrap_or(unit);
    list.extend(units.iter().map(|&unit| (Call::Remove { path: path(respelled(unit)) }, 0)));
    list.push((Call::Remove { path: vec![IN_ORDER[25]] }, 0));
    cases.extend(in_a_row("objects", &sample, list));
}
