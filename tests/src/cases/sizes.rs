//! Sizes with rubbish in their upper half (W-205). In version 3 every call gives what it gives with zeros there, and the rubbish
//! stays until its stream gets another length; in version 4 all of a size counts (W-207), so that no chain is long enough.
//! Storages and blank entries have none in either.

use super::{Case, objects};
use crate::breaks::edit::{SIZE, UPPER};
use crate::calls::Call;
use crate::geometry::{Geometry, V3};
use crate::images::Sample;
use crate::images::names;
use crate::images::plan::{Fill, Plan};
use crate::images::upper::RUBBISH;
use crate::model::Model;
use crate::random::Random;
use crate::volume::work_needed;
use std::rc::Rc;

/// Entries of the sample: the root, a storage, its streams, and those that are blank.
const ROOT: u32 = 0;
const SITE: u32 = 1;
const LOG: u32 = 2;
const JETS: u32 = 3;
const NOTES: u32 = 4;
const ENTRIES: [(&[u32], u32); 5] =
    [(&[ROOT], 16), (&[LOG], 17), (&[JETS], 17), (&[NOTES], 17), (&[ROOT, LOG, JETS, NOTES], 16)];

pub fn cases(g: Geometry) -> Vec<Case> {
    let mut cases = Vec::new();
    for upper in RUBBISH {
        for (entries, broken) in ENTRIES {
            let sample = with(g, entries, upper);
            if g == V3 { accepted(&sample, upper, &mut cases) } else { refused(&sample, broken, &mut cases) }
        }
    }
    if g != V3 {
        accepted(&site(g), 1, &mut cases);
    }
    storages_and_blanks(g, &mut cases);
    cases
}

/// A storage Site with a large stream log, a small one Jets and an empty one notes; 9 sectors and 3 mini sectors are free.
pub fn site(g: Geometry) -> Sample {
    let mut plan = Plan { fill: Fill::Noise, free: 9, spare_minis: 3, ..Plan::of(g) };
    let site = plan.add(0, names::of("Site"), None);
    plan.add(site, names::of("log"), Some(5_000));
    plan.add(site, names::of("Jets"), Some(70));
    plan.add(site, names::of("notes"), Some(0));
    Sample::build(&plan, &mut Random::of(0, 0))
}

/// The same with this upper half in the sizes of these entries.
pub fn with(g: Geometry, entries: &[u32], upper: u32) -> Sample {
    let mut sample = site(g);
    for &entry in entries {
        sample.set_field(entry, UPPER, upper);
    }
    sample
}

/// Every call, at the lines that the sizes as read draw, and at those that all eight bytes would draw.
fn accepted(sample: &Sample, upper: u32, cases: &mut Vec<Case>) {
    let rows = Rc::new(Model::of(sample));
    let mut next = |call, answer| cases.push(Case { model: Some(rows.clone()), ..on(&sample.image, call, answer) });
    next(Call::Validate, 0);
    next(Call::List { out: vec![b'#'; 400] }, 0);
    for path in ["", "Site", "Site/log", "Site/Jets", "Site/notes"] {
        next(Call::Find { path: names::of(path) }, 0);
    }
    for path in ["", "Site"] {
        calls(path).into_iter().for_each(|call| next(call, 23));
    }
    for path in ["Site/log", "Site/Jets", "Site/notes"] {
        next(Call::Remove { path: names::of(path) }, 0);
    }
    for (path, size) in [("Site/log", 5_000), ("Site/Jets", 70), ("Site/notes", 0)] {
        let whole = ((upper as u64) << 32) + size;
        for (offset, answer) in [(0, 0), (size / 2, 0), (size, 0), (size + 1, 24), (1 << 32, 24), (whole, 24)] {
            next(read(path, offset, 6_000), answer);
            next(overwrite(path, offset, size.saturating_sub(offset)), answer);
        }
        next(overwrite(path, 0, size + 1), 24);
        next(overwrite(path, 1 << 32, size), 24);
    }
    // The most that log and notes may get: with 9 more sectors than the 10 or 2 of 5,000 bytes, and with 9.
    let (log, notes) = if sample.layout.geometry == V3 { (9_728, 4_608) } else { (45_056, 36_864) };
    // Over the cutoff log may take 3 mini sectors, and Jets 9 sectors: their own do not count.
    let large = [(5_000, 0), (5_001, 0), (4_999, 0), (4_096, 0), (log, 0), (log + 1, 26), (0, 0)];
    let small = [(70, 0), (71, 0), (69, 0), (1, 0), (320, 0), (321, 26), (4_095, 26), (0, 0)];
    let empty = [(0, 0), (1, 0), (192, 0), (193, 26), (4_095, 26), (4_096, 0), (notes, 0), (notes + 1, 26)];
    let (down, up) = ([(1, 0), (192, 0), (193, 26), (4_095, 26)], [(4_096, 0), (notes, 0), (notes + 1, 26)]);
    let far = |size: u64| [(upper as u64) << 32, ((upper as u64) << 32) + size, (1 << 32) + size, u64::MAX];
    for (path, size, within, across) in
        [("Site/log", 5_000, &large[..], &down[..]), ("Site/Jets", 70, &small, &up), ("Site/notes", 0, &empty, &[])]
    {
        within.iter().chain(across).for_each(|&(length, answer)| next(set_length(path, length), answer));
        far(size).into_iter().for_each(|length| next(set_length(path, length), 26));
    }
}

/// Every call answers that this group is broken.
fn refused(sample: &Sample, group: u32, cases: &mut Vec<Case>) {
    cases.push(on(&sample.image, Call::Validate, group));
    cases.push(on(&sample.image, Call::List { out: vec![b'#'; 400] }, group));
    cases.push(on(&sample.image, Call::Find { path: names::of("Site") }, group));
    let all = calls("Site/log").into_iter().chain(objects::calls(&names::of("Site/new")));
    cases.extend(all.map(|call| on(&sample.image, call, group)));
}

/// One byte of the size of a storage or of a blank entry is not zero; with rubbish in the other sizes too.
fn storages_and_blanks(g: Geometry, cases: &mut Vec<Case>) {
    let sample = site(g);
    let blanks = &sample.layout.blanks;
    for entry in [SITE, blanks[0], blanks[1], blanks[blanks.len() - 1]] {
        for (byte, bit) in (0..8).flat_map(|byte| [(byte, 1), (byte, 0x80)]) {
            for mut sample in [site(g), with(g, &[ROOT, LOG, JETS, NOTES], 0xFFFF_FFFF)] {
                let at = sample.layout.entry(entry) + SIZE + byte;
                sample.image[at] = bit;
                refused(&sample, 14, cases);
            }
        }
    }
}

fn calls(path: &str) -> [Call; 3] {
    [read(path, 0, 9), overwrite(path, 0, 1), set_length(path, 4_500)]
}

fn read(path: &str, offset: u64, len: usize) -> Call {
    Call::Read { path: names::of(path), offset, out: vec![b'#'; len] }
}

fn overwrite(path: &str, offset: u64, count: u64) -> Call {
    Call::Overwrite { path: names::of(path), offset, bytes: vec![b'#'; count as usize] }
}

fn set_length(path: &str, length: u64) -> Call {
    Call::SetLength { path: names::of(path), length }
}

fn on(image: &[u8], call: Call, expected: u32) -> Case {
    Case { call, ..Case::new("sizes", image.to_vec(), work_needed(image.len()), Some(expected)) }
}
