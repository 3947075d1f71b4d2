//! Streams and storages created and removed (W-203): every answer.

use super::Case;
use super::names::{on, with_rows};
use crate::breaks::edit::{CHILD, SIZE, START};
use crate::calls::Call;
use crate::geometry::{Geometry, V3};
use crate::images::plan::{Fill, Order, Plan};
use crate::images::{Sample, names};
use crate::number::{END, NOSTREAM};
use crate::random::Random;

pub fn cases(g: Geometry) -> Vec<Case> {
    let mut cases = Vec::new();
    for blanks in [0, 1, 2, 5] {
        answers(&site(g, blanks), blanks > 0, &mut cases);
    }
    refused_images(g, &mut cases);
    cases
}

/// Each call of W-203.
pub fn calls(path: &[u16]) -> [Call; 3] {
    let path = || path.to_vec();
    [Call::CreateStream { path: path() }, Call::CreateStorage { path: path() }, Call::Remove { path: path() }]
}

pub fn create(path: &str) -> Call {
    Call::CreateStream { path: names::of(path) }
}

pub fn create_storage(path: &str) -> Call {
    Call::CreateStorage { path: names::of(path) }
}

pub fn remove(path: &str) -> Call {
    Call::Remove { path: names::of(path) }
}

/// Storages Site, Site/deep and Void, which is empty, with streams of every kind, and so many blank entries. The directory's sectors
/// lie in falling order, all free units hold noise, and in version 3 all sizes have rubbish above.
pub fn site(g: Geometry, blanks: usize) -> Sample {
    let some = Plan { fill: Fill::Noise, free: 9, spare_minis: 70, rubbish_once_in: 1, red_once_in: 1, ..Plan::of(g) };
    let mut plan = Plan { order: Order::Falling, mini_order: Order::Scattered, scattered_entries: true, ..some };
    let site = plan.add(0, names::of("Site"), None);
    plan.add(site, names::of("log"), Some(5_000));
    plan.add(site, names::of("Jets"), Some(70));
    let deep = plan.add(site, names::of("deep"), None);
    plan.add(deep, names::of("x"), Some(4_096));
    plan.add(deep, names::of("void"), Some(0));
    plan.add(0, names::of("Void"), None);
    plan.add(0, names::of("note"), Some(0));
    plan.add(0, names::of("gauge"), Some(4_095));
    fill(&mut plan, blanks);
    Sample::build(&plan, &mut Random::of(g.major as u64, 7))
}

/// Empty streams in the root, until so many entries are blank.
pub fn fill(plan: &mut Plan, blanks: usize) {
    let mut number = 0;
    while !(plan.objects.len() + blanks).is_multiple_of(plan.geometry.entries) {
        plan.add(0, names::of(&format!("filling {number:02}")), Some(0));
        number += 1;
    }
}

/// Each answer, with blank entries and without. 20, 21 and 22 come first, then the lowest of 28 to 31.
fn answers(sample: &Sample, blank: bool, cases: &mut Vec<Case>) {
    let long = "n".repeat(31);
    for path in ["new", "Site/new", "Site/deep/new", "Void/new", "site/DEEP/lof", "VOID/log", &long] {
        created(sample, path, if blank { 0 } else { 30 }, cases);
    }
    for path in ["", "Site", "sITE", "Void", "note", "NOTE", "Site/log", "site/LOG", "Site/deep", "Site/deep/X"] {
        created(sample, path, 29, cases);
    }
    let removals = [
        ("", 31),
        ("Site", 28),
        ("SITE", 28),
        ("Site/deep", 28),
        ("site/DEEP", 28),
        ("Void", 0),
        ("vOID", 0),
        ("note", 0),
        ("gauge", 0),
        ("GAUGE", 0),
        ("Site/log", 0),
        ("site/jets", 0),
        ("Site/deep/x", 0),
        ("Site/deep/void", 0),
        ("new", 21),
        ("Site/new", 21),
        ("Void/log", 21),
        (&long, 21),
    ];
    for (path, answer) in removals {
        cases.push(with_rows(sample, remove(path), answer));
    }
    // The first name that fails decides, and a path is judged before it.
    for path in ["gone/new", "gone/log", "Site/gone/new", "Void/gone/x", "gone/note/x", "log/new"] {
        each(sample, path, 21, cases);
    }
    for path in ["note/new", "note/gone/new", "Site/log/new", "site/LOG/deep/x", "Site/deep/x/log", "gauge/gauge"] {
        each(sample, path, 22, cases);
    }
    let bad = [
        "/",
        "//",
        "/new",
        "new/",
        "Site//new",
        "Site/",
        "/Site/log",
        "ne!w",
        "!",
        "Void/a:b",
        "a\\b",
        "\0",
        "Site/ne\0w",
    ];
    let also_missing = ["gone/a:b", "gone/", "gone//new", "note/x!", "note/x/", "Site/log/new:"];
    for path in bad.into_iter().chain(also_missing) {
        each(sample, path, 20, cases);
    }
    for path in ["n".repeat(32), format!("{}/new", "n".repeat(32)), format!("Void/{}", "n".repeat(64))] {
        each(sample, &path, 20, cases);
    }
}

pub fn created(sample: &Sample, path: &str, answer: u32, cases: &mut Vec<Case>) {
    cases.extend([create(path), create_storage(path)].map(|call| with_rows(sample, call, answer)));
}

fn each(sample: &Sample, path: &str, answer: u32, cases: &mut Vec<Case>) {
    cases.extend(calls(&names::of(path)).map(|call| with_rows(sample, call, answer)));
}

/// A group, and what breaks it.
type Change = (u32, fn(&mut Sample));

const CHANGES: [Change; 9] = [
    (10, |s| s.image[0] = 0),
    (11, |s| s.put(44, 0)),
    (12, |s| s.set_cell(s.layout.sectors, END)),
    (13, |s| s.put(48, END)),
    (14, |s| s.set_field(s.layout.blanks[0], SIZE, 1)),
    (15, |s| s.set_field(0, CHILD, NOSTREAM)),
    (16, |s| s.put(60, END)),
    (17, |s| s.set_field(s.layout.nodes[2].entry, START, END)),
    (18, |s| s.set_cell(s.layout.free[0], END)),
];

/// The image comes before the path.
fn refused_images(g: Geometry, cases: &mut Vec<Case>) {
    let sample = site(g, 2);
    for path in ["", "new", "Site", "note", "note/x", "gone/x", "/"] {
        for call in calls(&names::of(path)) {
            cases.extend(on_refused(&sample, call));
        }
    }
}

/// The call on this site with each group broken, with a work buffer that is too short, and with a length that is not allowed.
pub fn on_refused(sample: &Sample, call: Call) -> Vec<Case> {
    let broken = CHANGES.map(|(group, change)| {
        let mut broken = sample.clone();
        change(&mut broken);
        on(&broken, call.clone(), group)
    });
    let whole = on(sample, call, 2);
    // In version 3 a sector less would be a length that it has.
    let less = if sample.layout.geometry == V3 { 1 } else { 512 };
    let short = whole.image[..whole.image.len() - less].to_vec();
    let mut cases = broken.to_vec();
    cases.push(Case { work_len: whole.work_len - 1, ..whole.clone() });
    cases.push(Case { work_len: 0, ..whole.clone() });
    cases.push(Case { image: short, expected: Some(1), ..whole });
    cases
}
