//! Lists of calls in which objects are created and removed (W-203): storages emptied from the inside, names that come again, and one
//! entry for everything new.

use super::names::with_rows;
use super::objects::{create, create_storage, created, remove, site};
use super::{Case, in_a_row};
use crate::calls::Call;
use crate::geometry::Geometry;
use crate::images::plan::{Fill, Plan};
use crate::images::{Sample, names};
use crate::random::Random;

pub fn cases(g: Geometry) -> Vec<Case> {
    let mut cases = Vec::new();
    bare(g, &mut cases);
    cases.extend(in_a_row("objects", &site(g, 2), from_inside()));
    cases.extend(in_a_row("objects", &site(g, 3), once_more(g)));
    cases.extend(in_a_row("objects", &site(g, 1), one_entry_for_all()));
    cases
}

/// The root with nothing in it.
fn bare(g: Geometry, cases: &mut Vec<Case>) {
    let sample = Sample::build(&Plan { fill: Fill::Noise, ..Plan::of(g) }, &mut Random::of(0, 0));
    cases.push(with_rows(&sample, remove(""), 31));
    created(&sample, "", 29, cases);
    created(&sample, "a", 0, cases);
    cases.extend(in_a_row("objects", &sample, nested(g.entries - 1)));
}

/// Storages each in the one before, in all blank entries; removed from the inside.
fn nested(blanks: usize) -> Vec<(Call, u32)> {
    let path = |count: usize| vec!["a"; count].join("/");
    let mut calls: Vec<_> = (1..=blanks).map(|count| (create_storage(&path(count)), 0)).collect();
    calls.push((create_storage(&path(blanks + 1)), 30));
    calls.push((Call::List { out: vec![b'#'; 4_000] }, 0));
    for count in (1..=blanks).rev() {
        if count > 1 {
            calls.push((remove(&path(count - 1)), 28));
        }
        calls.push((remove(&path(count)), 0));
        calls.push((remove(&path(count)), 21));
    }
    calls.push((create(""), 29));
    calls.push((remove(""), 31));
    calls
}

/// Storages are removed from the inside; what is around them stays.
fn from_inside() -> Vec<(Call, u32)> {
    vec![
        (remove("Site"), 28),
        (remove("Site/deep"), 28),
        (remove("Site/deep/x"), 0),
        (remove("Site/deep"), 28),
        (create_storage("Site/deep/x"), 0),
        (create_storage("Site/deep/x/y"), 0),
        (remove("Site/deep/x"), 28),
        (remove("Site/deep/void"), 0),
        (remove("Site/deep/x/y"), 0),
        (remove("SITE/DEEP/X"), 0),
        (remove("Site"), 28),
        (remove("Site/Deep"), 0),
        (create("Site/deep/x"), 21),
        (remove("Site/deep"), 21),
        (remove("Site/log"), 0),
        (remove("Site"), 28),
        (remove("Site/jets"), 0),
        (remove("Site"), 0),
        (remove("Site"), 21),
        (create("Site/log"), 21),
        (remove("Void"), 0),
        (Call::List { out: vec![b'#'; 2_000] }, 0),
        (remove(""), 31),
    ]
}

/// A name that is removed and comes again has nothing of what it had: no bytes, and not the same kind.
fn once_more(g: Geometry) -> Vec<(Call, u32)> {
    let length = |path: &str, length| Call::SetLength { path: names::of(path), length };
    let read = |path: &str| Call::Read { path: names::of(path), offset: 0, out: vec![b'#'; 6_000] };
    let overwrite = |path: &str, offset| Call::Overwrite { path: names::of(path), offset, bytes: vec![b'!'; 40] };
    let find = |path: &str| Call::Find { path: names::of(path) };
    let sector = g.sector as u64;
    vec![
        (read("Site/log"), 0),
        (remove("Site/log"), 0),
        (read("Site/log"), 21),
        (length("Site/log", 1), 21),
        (create("site/LOG"), 0),
        (find("Site/log"), 0),
        (read("Site/log"), 0),
        (overwrite("Site/log", 0), 24),
        // The units that it had are free again: the most that there are.
        (length("Site/log", 9 * sector + 5_000_u64.next_multiple_of(sector) + 1), 26),
        (length("Site/log", 9 * sector + 5_000_u64.next_multiple_of(sector)), 0),
        (read("Site/log"), 0),
        (overwrite("SITE/log", 4_000), 0),
        (remove("site/log"), 0),
        (create_storage("Site/Log"), 0),
        (read("Site/log"), 23),
        (create("Site/log"), 29),
        (create("Site/log/log"), 0),
        (length("Site/log/log", 100), 0),
        (read("site/LOG/LOG"), 0),
        (remove("site/log"), 28),
        (overwrite("Site/log/log", 10), 0),
        (length("Site/log/log", 4_100), 0),
        (read("Site/log/log"), 0),
        (Call::List { out: vec![b'#'; 2_000] }, 0),
        (remove("site/log/log"), 0),
        (create("site/log/log"), 0),
        (read("site/log/log"), 0),
        (length("site/log/log", 64), 0),
        (read("Site/log/log"), 0),
        (remove("site/log/log"), 0),
        (remove("site/log"), 0),
        (find("site/log"), 21),
        (Call::Validate, 0),
    ]
}

/// One blank entry, which everything new has by turns.
fn one_entry_for_all() -> Vec<(Call, u32)> {
    let mut calls = Vec::new();
    for path in ["new", "Site/new", "Void/new", "Site/deep/new", "Site/a", "z"] {
        for created in [create(path), create_storage(path)] {
            calls.push((created, 0));
            calls.push((create("more"), 30));
            calls.push((create_storage("Site/more"), 30));
            calls.push((create("Site/log"), 29));
            calls.push((create("Site/log/more"), 22));
            calls.push((Call::Find { path: names::of(path) }, 0));
            calls.push((remove(path), 0));
        }
    }
    // Another one is removed, and its entry is the lowest.
    calls.push((remove("Site/log"), 0));
    calls.push((create("Site/other"), 0));
    calls.push((create("last"), 0));
    calls.push((create("more"), 30));
    calls.push((Call::List { out: vec![b'#'; 2_000] }, 0));
    calls
}
