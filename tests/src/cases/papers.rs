//! The papers' own cases of listing and length changes, in either version.

use super::Case;
use crate::calls::Call;
use crate::geometry::{Geometry, V3};
use crate::images::Sample;
use crate::images::names;
use crate::images::plan::{Fill, Plan};
use crate::model::Model;
use crate::random::Random;
use crate::volume::work_needed;
use std::rc::Rc;

pub fn cases(g: Geometry) -> Vec<Case> {
    let whole = "objects 3\nD 0 Site\nF 5000 Site/log\nF 70 Site/Jets\n".len();
    let one_stream = |size, free, spare_minis| one_stream(g, size, free, spare_minis);
    // The sectors of 4,096 bytes, and the bytes of one more.
    let (need, sector) = if g == V3 { (8, 512) } else { (1, 4_096) };
    vec![
        on(&site(g), list(whole), 0),
        on(&site(g), list(whole - 1), 27),
        on(&one_stream(4_095, need, 0), set_length(4_096), 0),
        on(&one_stream(4_095, need - 1, 0), set_length(4_096), 26),
        on(&one_stream(0, need, 0), set_length(4_096), 0),
        on(&one_stream(0, need - 1, 0), set_length(4_096), 26),
        on(&one_stream(0, need, 0), set_length(4_097), 26),
        on(&one_stream(0, need + 1, 0), set_length(4_097), 0),
        on(&one_stream(0, need + 1, 0), set_length(4_096 + sector), 0),
        on(&one_stream(0, need + 1, 0), set_length(4_097 + sector), 26),
        on(&one_stream(4_096, 0, 0), set_length(4_097), 26),
        on(&one_stream(4_097, 0, 0), set_length(4_096 + sector), 0),
        on(&one_stream(4_097, 0, 0), set_length(4_097 + sector), 26),
        on(&one_stream(20_000, 0, 0), set_length(4_096), 0),
        on(&one_stream(0, 0, 64), set_length(4_095), 0),
        on(&one_stream(0, 0, 63), set_length(4_095), 26),
        on(&one_stream(0, 9, 70), set_length(u64::MAX), 26),
        on(&one_stream(0, 9, 70), set_length(1 << 32), 26),
        on(&one_stream(4_096, 9, 70), set_length((1 << 32) + 4_096), 26),
        on(&one_stream(4_096, 0, 0), set_length(0), 0),
        on(&one_stream(100, 0, 0), set_length(128), 0),
        on(&one_stream(100, 0, 0), set_length(129), 26),
        on(&one_stream(100, 0, 0), overwrite(98, 2), 0),
        on(&one_stream(100, 0, 0), overwrite(99, 2), 24),
        on(&one_stream(100, 0, 0), overwrite(100, 0), 0),
        on(&one_stream(100, 0, 0), overwrite(101, 0), 24),
        on(&one_stream(100, 0, 0), overwrite(u64::MAX, 2), 24),
    ]
}

/// A storage Site with streams log (5,000 bytes) and Jets (70).
pub fn site(g: Geometry) -> Sample {
    let mut plan = Plan { fill: Fill::Noise, spare_minis: 3, ..Plan::of(g) };
    let site = plan.add(0, names::of("Site"), None);
    plan.add(site, names::of("log"), Some(5_000));
    plan.add(site, names::of("Jets"), Some(70));
    Sample::build(&plan, &mut Random::of(0, 0))
}

/// One stream, and so many free sectors and mini sectors.
fn one_stream(g: Geometry, size: u32, free: u32, spare_minis: u32) -> Sample {
    let mut plan = Plan { fill: Fill::Noise, free, spare_minis, ..Plan::of(g) };
    plan.add(0, names::of("log"), Some(size));
    Sample::build(&plan, &mut Random::of(0, 0))
}

fn on(sample: &Sample, call: Call, expected: u32) -> Case {
    let work_len = work_needed(sample.image.len());
    let model = Some(Rc::new(Model::of(sample)));
    Case { call, model, ..Case::new("papers", sample.image.clone(), work_len, Some(expected)) }
}

fn list(len: usize) -> Call {
    Call::List { out: vec![b'#'; len] }
}

fn set_length(length: u64) -> Call {
    Call::SetLength { path: names::of("LOG"), length }
}

fn overwrite(offset: u64, count: usize) -> Call {
    Call::Overwrite { path: names::of("LOG"), offset, bytes: vec![b'#'; count] }
}
