//! Lists of calls on fresh images (W-209): objects created, grown and removed, and an image made anew in the place of another.

use super::fresh::{asked, noise};
use super::objects::{create, create_storage, remove, site};
use super::{Case, in_a_row, in_a_row_on};
use crate::calls::format::Fresh;
use crate::calls::{Call, perform};
use crate::geometry::{Geometry, V3, V4};
use crate::images::names;
use crate::model::Model;

/// A length that both versions have.
const BYTES: usize = 61_440;

pub fn cases(g: Geometry) -> Vec<Case> {
    let mut image = noise(BYTES);
    perform(&Call::Format(plan(g)), &mut image, 0);
    let rows = Model::fresh(&plan(g), BYTES).expect("a plan that fits");
    let mut cases = in_a_row_on("fresh", image, rows, all(g));
    cases.extend(in_a_row("fresh", &site(g, 2), in_the_place_of_another(g)));
    for case in cases.iter_mut().filter(|case| case.model.as_ref().is_some_and(|rows| rows.rows.len() == 1)) {
        if matches!(case.call, Call::List { .. }) {
            case.text = Some("objects 0\n".to_string());
        }
    }
    cases
}

/// Two sectors for the directory, and 20 mini sectors.
fn plan(g: Geometry) -> Fresh {
    asked(g, g.count(BYTES) as u64, 2, 1, 20)
}

fn list() -> Call {
    Call::List { out: vec![b'#'; 4_000] }
}

fn length(path: &str, length: u64) -> Call {
    Call::SetLength { path: names::of(path), length }
}

fn find(path: &str) -> Call {
    Call::Find { path: names::of(path) }
}

/// All that was written is there to be had, then the other version takes its place, then this one again.
fn all(g: Geometry) -> Vec<(Call, u32)> {
    let other = if g == V3 { V4 } else { V3 };
    let mut calls = vec![(Call::Validate, 0), (list(), 0), (find(""), 0), (find("log"), 21), (remove(""), 31)];
    calls.extend(used(g));
    calls.extend([(Call::Format(Fresh { directory: 0, ..plan(g) }), 32), (list(), 0), (find("last"), 0)]);
    calls.extend([(Call::Format(plan(other)), 0), (list(), 0), (find("last"), 21)]);
    calls.extend(used(other));
    calls.extend([(Call::Format(Fresh { sectors: 3, ..plan(g) }), 1), (find("last"), 0), (Call::Format(plan(g)), 0)]);
    calls.extend(used(g));
    calls
}

/// Streams take all sectors and all mini sectors, and objects all entries; all but one are removed.
fn used(g: Geometry) -> Vec<(Call, u32)> {
    let (sector, parts) = (g.sector as u64, if g == V3 { 7 } else { 5 });
    let most = sector * (g.count(BYTES) as u64 - parts);
    let bytes = |path: &str, len| Call::Overwrite { path: names::of(path), offset: 0, bytes: vec![b'!'; len] };
    let read = |path: &str| Call::Read { path: names::of(path), offset: 0, out: vec![b'#'; BYTES] };
    let mut calls = vec![
        (create("log"), 0),
        (create_storage("Site"), 0),
        (create("Site/Jets"), 0),
        (length("log", 5_000), 0),
        (length("Site/Jets", 70), 0),
        (bytes("log", 5_000), 0),
        (bytes("site/jets", 70), 0),
        (read("Site/Jets"), 0),
        (list(), 0),
        (length("log", most + 1), 26),
        (length("log", most), 0),
        (read("log"), 0),
        (length("Site/Jets", 20 * 64 + 1), 26),
        (length("Site/Jets", 20 * 64), 0),
        (create("last"), 0),
        (length("last", 1), 26),
        (length("last", 4_096), 26),
    ];
    let blanks = 2 * g.entries - 1 - 4;
    let extra = |number: usize| format!("Site/{number}");
    calls.extend((0..blanks).map(|number| (create(&extra(number)), 0)));
    calls.extend([(create("more"), 30), (create_storage("Site/more"), 30), (list(), 0), (remove("Site"), 28)]);
    calls.extend((0..blanks).map(|number| (remove(&extra(number)), 0)));
    calls.extend([(remove("Site/Jets"), 0), (remove("Site"), 0), (length("last", 20 * 64), 0), (remove("log"), 0)]);
    calls.extend([
        (length("last", most), 0),
        (length("last", most + 1), 26),
        (length("last", 10), 0),
        (Call::Validate, 0),
    ]);
    calls
}

/// Of an image with objects nothing is left.
fn in_the_place_of_another(g: Geometry) -> Vec<(Call, u32)> {
    let sectors = site(g, 2).layout.sectors as u64;
    let here = asked(g, sectors, 1, 0, 0);
    vec![
        (find("Site/log"), 0),
        (Call::Format(Fresh { mini_fat: sectors, ..here }), 32),
        (Call::Format(Fresh { sectors: sectors + 1, ..here }), 1),
        (Call::Format(Fresh { version: 2, ..here }), if g == V3 { 32 } else { 1 }),
        (find("Site/log"), 0),
        (Call::Format(here), 0),
        (list(), 0),
        (find("Site/log"), 21),
        (create("log"), 0),
        (length("log", 1), 26),
        (length("log", 4_096), 0),
        (Call::Read { path: names::of("LOG"), offset: 0, out: vec![b'#'; 5_000] }, 0),
        (remove("log"), 0),
        (list(), 0),
        (Call::Format(here), 0),
        (list(), 0),
    ]
}
