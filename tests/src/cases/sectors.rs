//! What a sector holds in either version (W-207): entries, bytes of a stream, mini sectors, and cells of the mini FAT.

use super::Case;
use super::names::{calls, on, with_rows};
use super::versions::{broken, site};
use crate::breaks::edit::{LEFT, SIZE, START};
use crate::calls::Call;
use crate::geometry::{Geometry, V4};
use crate::images::plan::{Fill, Plan};
use crate::images::{Sample, names};
use crate::number::*;
use crate::random::Random;
use std::cmp::Ordering::{Equal, Greater, Less};

pub fn cases(g: Geometry) -> Vec<Case> {
    let mut cases = Vec::new();
    entry_numbers(g, &mut cases);
    all_entries(g, &mut cases);
    pieces(g, &mut cases);
    lengths(g, &mut cases);
    for size in [4_096, 4_097, 8_191, 8_192, 8_193, 12_288, 12_289] {
        chain_lengths(g, size, &mut cases);
    }
    mini_tables(g, &mut cases);
    cases
}

/// Of n directory sectors there are 32n entries in version 4, and 4n in version 3.
fn entry_numbers(g: Geometry, cases: &mut Vec<Case>) {
    for spare in [0, 1, 2] {
        let sample = site(g, spare);
        let count = sample.layout.entry_count();
        assert_eq!(count, (spare + 1) * if g == V4 { 32 } else { 4 });
        for number in [count - 1, count, count + 1, 4 * (spare + 1), 32 * (spare + 1), 0x1000, END] {
            // A blank entry, or none.
            let mut sample = sample.clone();
            sample.set_field(3, LEFT, number);
            broken(&sample, 15, cases);
        }
    }
}

/// As many objects as there are entries: one at each end of a sector is found.
fn all_entries(g: Geometry, cases: &mut Vec<Case>) {
    let entries = if g == V4 { 32 } else { 4 };
    for count in [entries - 1, 2 * entries - 1, 3 * entries - 1] {
        let mut plan = Plan { fill: Fill::Noise, ..Plan::of(g) };
        for number in 0..count {
            plan.add(0, names::of(&format!("stream {number:03}")), Some(70));
        }
        let sample = Sample::build(&plan, &mut Random::of(0, 0));
        assert_eq!((sample.layout.blanks.len(), sample.layout.entry_count()), (0, count + 1));
        cases.push(with_rows(&sample, Call::List { out: vec![b'#'; 9_000] }, 0));
        for number in [0, entries - 2, count - 1] {
            let path = names::of(&format!("STREAM {number:03}"));
            cases.extend(calls(&path).map(|call| with_rows(&sample, call, 0)));
        }
    }
}

/// Reads and overwrites around each end of a sector.
fn pieces(g: Geometry, cases: &mut Vec<Case>) {
    let sample = site(g, 0);
    let path = || names::of("Site/log");
    for line in (0..=10_000usize).step_by(g.sector).chain([4_096, 8_192]) {
        for offset in [line.saturating_sub(1), line, line + 1].into_iter().filter(|&offset| offset <= 10_000) {
            for len in [1, 2, 511, 512, 513, g.sector, g.sector + 1, 6_000] {
                let out = vec![b'#'; len];
                cases.push(with_rows(&sample, Call::Read { path: path(), offset: offset as u64, out }, 0));
                let bytes = vec![b'#'; len];
                let answer = if offset + len > 10_000 { 24 } else { 0 };
                cases.push(with_rows(&sample, Call::Overwrite { path: path(), offset: offset as u64, bytes }, answer));
            }
        }
    }
}

/// New lengths around each end of a sector. 10,000 bytes take 20 of them or 3, and 3 are free. So are 3 mini sectors, too few for
/// 4,095 bytes.
fn lengths(g: Geometry, cases: &mut Vec<Case>) {
    let sample = site(g, 0);
    let most = (if g == V4 { 3 } else { 20 } + 3) * g.sector as u64;
    for line in (4_096..=most).step_by(g.sector) {
        for length in [line - 1, line, line + 1] {
            let answer = match length {
                4_096.. if length <= most => 0,
                _ => 26,
            };
            cases.push(with_rows(&sample, Call::SetLength { path: names::of("Site/log"), length }, answer));
        }
    }
}

/// A stream of this size whose chain is given any number of units: only one is right.
fn chain_lengths(g: Geometry, size: u32, cases: &mut Vec<Case>) {
    let mut plan = Plan { free: 12, ..Plan::of(g) };
    plan.add(0, names::of("log"), Some(size));
    let sample = Sample::build(&plan, &mut Random::of(0, 0));
    let own = sample.layout.nodes[1].units.clone();
    let all = [&own[..], &sample.layout.free].concat();
    assert_eq!(own.len() as u32, size.div_ceil(if g == V4 { 4_096 } else { 512 }));
    for count in 1..=all.len() {
        let mut sample = sample.clone();
        for (i, &unit) in all.iter().enumerate() {
            let next = match (i + 1).cmp(&count) {
                Less => all[i + 1],
                Equal => END,
                Greater => FREE,
            };
            sample.set_cell(unit, next);
        }
        sample.set_field(1, START, all[0]);
        cases.push(on(&sample, Call::Validate, if count == own.len() { 0 } else { 17 }));
    }
}

/// Mini sectors around what a sector of the mini stream holds, and around what a mini FAT sector has cells for.
fn mini_tables(g: Geometry, cases: &mut Vec<Case>) {
    let (minis, cells) = if g == V4 { (64, 1_024) } else { (8, 128) };
    for count in [1, minis - 1, minis, minis + 1, 2 * minis, cells - 1, cells, cells + 1, 2 * cells, 2 * cells + 1] {
        let mut plan = Plan { spare_minis: count - 1, free: 1, ..Plan::of(g) };
        plan.add(0, names::of("log"), Some(64));
        let sample = Sample::build(&plan, &mut Random::of(0, 0));
        let tables = (sample.layout.mini_stream.len() as u32, sample.layout.mini_fat.len() as u32);
        assert_eq!(tables, (count.div_ceil(minis), count.div_ceil(cells)));
        let set_length = |length| Call::SetLength { path: names::of("log"), length };
        let most = (64 * count as u64).min(4_095);
        cases.push(with_rows(&sample, Call::Validate, 0));
        cases.push(with_rows(&sample, set_length(most), 0));
        // 4,096 bytes need the one free sector in version 4, and 8 in version 3.
        cases.push(with_rows(&sample, set_length(most + 1), if most == 4_095 && g == V4 { 0 } else { 26 }));
        // The same sectors with another number of mini sectors: right as far as they hold them and there are cells.
        for other in [count - 1, count + 1, count + minis, count.saturating_sub(minis)] {
            let mut sample = sample.clone();
            sample.set_field(0, SIZE, 64 * other);
            let held = other.div_ceil(minis) == tables.0 && other <= cells * tables.1;
            // The only mini sector taken is below K, unless that is 0.
            cases.push(on(&sample, Call::Validate, if held { 0 } else { 16 }));
        }
    }
}
