//! Names and paths with units that no name has, the exclamation mark (W-202) above all, and with units beside those.

use super::{Case, objects};
use crate::calls::Call;
use crate::geometry::Geometry;
use crate::images::Sample;
use crate::images::names::{self, BESIDE, REFUSED};
use crate::images::plan::{Fill, Plan};
use crate::images::write;
use crate::model::Model;
use crate::random::Random;
use crate::volume::work_needed;
use std::rc::Rc;

pub fn cases(g: Geometry) -> Vec<Case> {
    let mut cases = Vec::new();
    for name in with(&REFUSED) {
        refused(g, &name, &mut cases);
    }
    for name in with(&BESIDE) {
        accepted(g, &name, &mut cases);
    }
    paths(g, &mut cases);
    cases
}

/// Names with each of these units: alone, at the beginning, in the middle and at the end, also of a name of 31 units.
pub fn with(units: &[u16]) -> Vec<Vec<u16>> {
    let mut all = Vec::new();
    for &unit in units {
        all.push(vec![unit]);
        for letters in [2, 30] {
            for at in [0, letters / 2, letters] {
                let mut name = vec![b'x' as u16; letters];
                name.insert(at, unit);
                all.push(name);
            }
        }
    }
    all
}

/// A storage Site with a stream log, and beside it an object of this name, whether or not one may have it.
fn beside_site(g: Geometry, name: &[u16], size: Option<u32>) -> Sample {
    let mut plan = Plan { fill: Fill::Noise, free: 1, spare_minis: 3, ..Plan::of(g) };
    let site = plan.add(0, names::of("Site"), None);
    plan.add(site, names::of("log"), Some(70));
    plan.add(0, name.to_vec(), size);
    Sample::build(&plan, &mut Random::of(0, 0))
}

/// No object may have the name, but the root may.
fn refused(g: Geometry, name: &[u16], cases: &mut Vec<Case>) {
    for size in [None, Some(0), Some(70), Some(5_000)] {
        let sample = beside_site(g, name, size);
        cases.push(on(&sample, Call::Validate, 14));
        // The image is judged before the path.
        cases.extend(calls(name).into_iter().chain(objects::calls(name)).map(|call| on(&sample, call, 14)));
        cases.push(on(&sample, Call::List { out: vec![b'#'; 400] }, 14));
    }
    let mut sample = beside_site(g, &names::of("last"), Some(70));
    let root = sample.layout.entry(0);
    write::name(&mut sample.image, root, name);
    cases.push(with_rows(&sample, Call::Validate, 0));
    cases.push(with_rows(&sample, Call::Find { path: Vec::new() }, 0));
    cases.push(with_rows(&sample, Call::List { out: vec![b'#'; 400] }, 0));
}

/// An object may have the name, and is found by it.
fn accepted(g: Geometry, name: &[u16], cases: &mut Vec<Case>) {
    for size in [None, Some(70)] {
        let sample = beside_site(g, name, size);
        cases.push(with_rows(&sample, Call::Validate, 0));
        cases.push(with_rows(&sample, Call::Find { path: name.to_vec() }, 0));
        cases.push(with_rows(&sample, Call::List { out: vec![b'#'; 400] }, 0));
        let answer = if size.is_some() { 0 } else { 23 };
        cases.extend(calls(name).into_iter().skip(1).map(|call| with_rows(&sample, call, answer)));
    }
}

/// Badly formed, whatever else the path would give; with a unit beside it is well formed, and leads nowhere.
fn paths(g: Geometry, cases: &mut Vec<Case>) {
    let sample = beside_site(g, &names::of("last"), Some(70));
    // Below the root, a storage, a storage that is not there, and a stream; and before a name that is there or not.
    let places = [
        ("", "", 21),
        ("Site/", "", 21),
        ("gone/", "", 21),
        ("Site/log/", "", 22),
        ("", "/log", 21),
        ("gone/", "/x", 21),
    ];
    for (before, behind, missing) in places {
        let around = |name: Vec<u16>| [names::of(before), name, names::of(behind)].concat();
        // All that are refused but the slash, which parts names.
        for path in with(&[0, 0x5C, 0x3A, 0x21]).into_iter().map(around) {
            let all = calls(&path).into_iter().chain(objects::calls(&path));
            cases.extend(all.map(|call| with_rows(&sample, call, 20)));
        }
        for name in with(&[0x20, 0x22, 0x2100, 0x0121]) {
            cases.extend(calls(&around(name)).map(|call| with_rows(&sample, call, missing)));
        }
    }
    for path in ["Site!", "!Site", "Site!/log", "!Site/log", "Site/!log", "Site/lo!g", "Site/log!", "site/LOG/!"] {
        cases.extend(calls(&names::of(path)).map(|call| with_rows(&sample, call, 20)));
    }
}

/// Each call on what is at a path; on a stream of at least two bytes all are done.
pub fn calls(path: &[u16]) -> [Call; 4] {
    let path = || path.to_vec();
    [
        Call::Find { path: path() },
        Call::Read { path: path(), offset: 1, out: vec![b'#'; 9] },
        Call::Overwrite { path: path(), offset: 1, bytes: vec![b'#'] },
        Call::SetLength { path: path(), length: 80 },
    ]
}

pub fn on(sample: &Sample, call: Call, expected: u32) -> Case {
    let work_len = work_needed(sample.image.len());
    Case { call, ..Case::new("names", sample.image.clone(), work_len, Some(expected)) }
}

pub fn with_rows(sample: &Sample, call: Call, expected: u32) -> Case {
    Case { model: Some(Rc::new(Model::of(sample))), ..on(sample, call, expected) }
}
