//! Changes of length over the cutoff, in both directions (W-201): just enough free units of the kind that is taken, and one too few;
//! and lists of changes on one image. All free units, and the ends of all chains, hold noise before.

use super::names::with_rows;
use super::{Case, in_a_row};
use crate::calls::Call;
use crate::geometry::{Geometry, V3};
use crate::images::plan::{Fill, Order, Plan};
use crate::images::{Sample, names};
use crate::random::Random;

pub fn cases(g: Geometry) -> Vec<Case> {
    let mut cases = Vec::new();
    upward(g, &mut cases);
    downward(g, &mut cases);
    absurd(g, &mut cases);
    without_mini_stream(g, &mut cases);
    there_and_back(g, &mut cases);
    taking_turns(g, &mut cases);
    cases
}

/// Room for these lengths in sectors: with as many as they need, and with one less. Free mini sectors do not matter.
fn upward(g: Geometry, cases: &mut Vec<Case>) {
    let needs = match g == V3 {
        true => [(4_096, 8), (4_097, 9), (4_608, 9), (4_609, 10), (8_192, 16), (100_000, 196)],
        false => [(4_096, 1), (4_097, 2), (8_192, 2), (8_193, 3), (12_288, 3), (100_000, 25)],
    };
    for (new, need) in needs {
        for old in [1, 63, 64, 65, 100, 4_032, 4_033, 4_095] {
            for minis in [0, 70] {
                for order in [Order::Rising, Order::Falling, Order::Scattered] {
                    cases.push(on(&sample(g, order, old, need, minis), new, 0));
                    cases.push(on(&sample(g, order, old, need - 1, minis), new, 26));
                }
            }
        }
    }
}

/// The same in mini sectors: a cut may be refused for room. Free sectors do not matter.
fn downward(g: Geometry, cases: &mut Vec<Case>) {
    let needs = [(1, 1), (63, 1), (64, 1), (65, 2), (100, 2), (4_032, 63), (4_033, 64), (4_095, 64)];
    for (new, need) in needs {
        for old in [4_096, 4_097, 4_608, 8_192, 100_000] {
            for free in [0, 9] {
                for order in [Order::Rising, Order::Falling, Order::Scattered] {
                    cases.push(on(&sample(g, order, old, free, need), new, 0));
                    cases.push(on(&sample(g, order, old, free, need - 1), new, 26));
                }
            }
        }
    }
}

/// Lengths for which there is never room. Cut to 32 bits, or counted in units cut to 32 bits, there would be.
fn absurd(g: Geometry, cases: &mut Vec<Case>) {
    let sample = sample(g, Order::Scattered, 100, 40, 70);
    for line in [1u64 << 32, 1 << 38, 1 << 41, 1 << 44, 1 << 63] {
        for length in [line - 1, line, line + 1, line + 100, line + 4_096] {
            cases.push(on(&sample, length, 26));
        }
    }
    for below in [0, 1, 62, 63, 510, 511, 4_094, 4_095] {
        cases.push(on(&sample, u64::MAX - below, 26));
    }
}

/// Nothing but the stream: there is no mini sector at all, or there is none but its own.
fn without_mini_stream(g: Geometry, cases: &mut Vec<Case>) {
    for (old, new, answer) in [(4_096, 4_095, 26), (4_096, 1, 26), (1, 4_096, 0), (4_095, 4_096, 0)] {
        let mut plan = Plan { fill: Fill::Noise, free: 8, ..Plan::of(g) };
        plan.add(0, names::of("log"), Some(old));
        cases.push(on(&Sample::build(&plan, &mut Random::of(0, 0)), new, answer));
    }
}

/// One stream goes over the cutoff and back, on one image. It may have 64 mini sectors, two of which it has at first, or 196 sectors
/// (25 in version 4).
fn there_and_back(g: Geometry, cases: &mut Vec<Case>) {
    let (free, most) = if g == V3 { (196, 100_352) } else { (25, 102_400) };
    let lengths =
        [100, 100_000, 100, 4_096, 4_095, 4_096, 1, 4_096, 4_033, most, 64, 65, 4_097, 4_032, 0, most, 4_095, 0, 1];
    for order in [Order::Rising, Order::Falling, Order::Scattered] {
        let calls: Vec<_> = lengths.iter().flat_map(|&length| [("log", most + 1, 26), ("log", length, 0)]).collect();
        changes(&sample(g, order, 100, free, 62), &calls, cases);
    }
}

/// Two streams, each with all units of its kind: what one of them is about to release is no room for itself, and is room for the other
/// once it is released.
fn taking_turns(g: Geometry, cases: &mut Vec<Case>) {
    for order in [Order::Rising, Order::Falling, Order::Scattered] {
        let mut plan = Plan { fill: Fill::Noise, order, mini_order: order, rubbish_once_in: 1, ..Plan::of(g) };
        plan.add(0, names::of("small"), Some(4_095));
        plan.add(0, names::of("large"), Some(4_096));
        let calls = [
            ("small", 4_096, 26),
            ("large", 4_095, 26),
            ("large", 1, 26),
            ("small", 4_000, 0),
            ("large", 65, 26),
            ("large", 64, 0),
            ("small", 4_096, 0),
            ("large", 4_096, 26),
            ("large", 4_095, 0),
            ("small", 1, 26),
            ("large", 4_032, 0),
            ("small", 65, 26),
            ("small", 64, 0),
            ("large", 4_096, 0),
            ("small", 4_095, 0),
            ("small", 4_096, 26),
        ];
        changes(&Sample::build(&plan, &mut Random::of(0, 0)), &calls, cases);
    }
}

/// A stream log of this length among others of both kinds, and so many free sectors and mini sectors. In version 3 the upper half of
/// each size is rubbish.
fn sample(g: Geometry, order: Order, size: u32, free: u32, spare_minis: u32) -> Sample {
    let mixed_parts = order == Order::Scattered;
    let some = Plan { fill: Fill::Noise, rubbish_once_in: 1, free, spare_minis, ..Plan::of(g) };
    let mut plan = Plan { order, mini_order: order, mixed_parts, ..some };
    plan.add(0, names::of("Jets"), Some(70));
    plan.add(0, names::of("timing"), Some(5_000));
    plan.add(0, names::of("log"), Some(size));
    plan.add(0, names::of("notes"), Some(130));
    plan.add(0, names::of("pumps"), Some(4_100));
    Sample::build(&plan, &mut Random::of(size as u64, free as u64))
}

/// The stream log gets this length.
fn on(sample: &Sample, length: u64, expected: u32) -> Case {
    Case { kind: "cutoff".to_string(), ..with_rows(sample, set_length("log", length), expected) }
}

/// Each change on the image that the ones before leave.
fn changes(sample: &Sample, calls: &[(&str, u64, u32)], cases: &mut Vec<Case>) {
    let calls = calls.iter().map(|&(path, length, expected)| (set_length(path, length), expected));
    cases.extend(in_a_row("cutoff", sample, calls.collect()));
}

fn set_length(path: &str, length: u64) -> Call {
    Call::SetLength { path: names::of(path), length }
}
