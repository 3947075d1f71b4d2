//! Pulse streams (W-208): every answer, preambles of every length, records over the ends of units, additions over each line that the
//! papers draw, room for the last one and for one too few, and trailers and records that are not right in each way.

use super::names::{on, with_rows};
use super::objects::{on_refused, site};
use super::{Case, in_a_row};
use crate::calls::Call;
use crate::calls::pulse::Pulse;
use crate::geometry::{Geometry, V3};
use crate::images::plan::{Fill, Order, Plan};
use crate::images::pulses::{some, trailer, written};
use crate::images::{Sample, names};
use crate::model::Model;
use crate::random::Random;
use std::rc::Rc;

/// One after the other, since there are many.
pub fn run(g: Geometry, next: &mut dyn FnMut(Case)) {
    preambles(g, next);
    over_the_ends(g, next);
    additions(g, next);
    room(g, next);
    full(g, next);
    lengths(g, next);
    trailers(g, next);
    other_counts(g, next);
    old_trailers(g, next);
    records(g, next);
    great_totals(g, next);
    refused(g, next);
}

/// Some pulses, the same ones every time.
fn pulses(count: usize) -> Vec<Pulse> {
    let mut r = Random::of(208, count as u64);
    (0..count).map(|_| some(&mut r)).collect()
}

/// The bytes of a stream with so long a preamble and so many records. In the preamble each byte says where it is.
fn stream(preamble: usize, count: usize) -> Vec<u8> {
    let mut bytes: Vec<u8> = (0..preamble).map(|i| (7 * i + 1) as u8).collect();
    bytes.extend(written(&pulses(count)));
    bytes
}

/// A stream log of these bytes and a storage Site with one, among others of both kinds, and so many free sectors and mini sectors. All
/// else is noise, and in version 3 so is the upper half of each size.
fn sample(g: Geometry, order: Order, bytes: &[u8], free: u32, spare_minis: u32) -> Sample {
    let mixed_parts = order == Order::Scattered;
    let some = Plan { fill: Fill::Noise, rubbish_once_in: 1, free, spare_minis, ..Plan::of(g) };
    let mut plan = Plan { order, mini_order: order, mixed_parts, ..some };
    plan.add(0, names::of("Jets"), Some(70));
    plan.add(0, names::of("timing"), Some(5_000));
    let log = plan.add(0, names::of("log"), Some(bytes.len() as u32));
    let site = plan.add(0, names::of("Site"), None);
    plan.add(site, names::of("log"), Some(130));
    let mut sample = Sample::build(&plan, &mut Random::of(bytes.len() as u64, free as u64));
    let node = sample.layout.nodes[log].clone();
    sample.put_end(&node, bytes);
    sample
}

/// The same in the plainest order, with room for a crossing of the cutoff.
fn plain(g: Geometry, bytes: &[u8]) -> Sample {
    sample(g, Order::Rising, bytes, 10, 3)
}

fn summary() -> Call {
    Call::PulseSummary { path: names::of("log") }
}

fn record(number: u32) -> Call {
    Call::PulseRecord { path: names::of("LOG"), number }
}

fn add(valve: u16, ticks: u32) -> Call {
    Call::PulseAdd { path: names::of("Log"), pulse: Pulse { valve, ticks } }
}

/// Several calls on one image, each with its answer.
fn each(sample: &Sample, calls: Vec<(Call, u32)>, next: &mut dyn FnMut(Case)) {
    let rows = Rc::new(Model::of(sample));
    for (call, expected) in calls {
        next(Case { kind: "pulses".to_string(), model: Some(rows.clone()), ..on(sample, call, expected) });
    }
}

/// Sum, first and last record and one more, and an addition.
fn right(sample: &Sample, count: usize, next: &mut dyn FnMut(Case)) {
    let count = count as u32;
    let mut calls = vec![(summary(), 0), (record(count), 42), (record(u32::MAX), 42), (add(5, 1), 0), (add(5, 0), 41)];
    if count > 0 {
        calls.extend([(record(0), 0), (record(count / 2), 0), (record(count - 1), 0)]);
    }
    each(sample, calls, next);
}

/// 40 for every call, also where 41 and 42 would come.
fn wrong(sample: &Sample, next: &mut dyn FnMut(Case)) {
    each(
        sample,
        vec![(summary(), 40), (record(0), 40), (record(u32::MAX), 40), (add(1, 9), 40), (add(1, 0), 40)],
        next,
    );
}

/// Of every length from 0 to 64: records lie at each place of a mini sector.
fn preambles(g: Geometry, next: &mut dyn FnMut(Case)) {
    for preamble in 0..=64 {
        for count in [0, 1, 2, 17] {
            right(&plain(g, &stream(preamble, count)), count, next);
        }
    }
}

/// The first record, one of the others, or the trailer lies over the end of a sector or of a mini sector, and begins 1 to 7 bytes
/// before it.
fn over_the_ends(g: Geometry, next: &mut dyn FnMut(Case)) {
    for before in 1..8 {
        for order in [Order::Rising, Order::Scattered] {
            for line in [64, 512, 1_024, 4_096, 8_192] {
                for count in [1, 3, 600] {
                    // The first record begins there, or the last.
                    let place: usize = line - before;
                    for preamble in [Some(place), place.checked_sub(8 * (count - 1))].into_iter().flatten() {
                        right(&sample(g, order, &stream(preamble, count), 10, 3), count, next);
                    }
                }
            }
        }
    }
    for before in 1..16 {
        for line in [64, 512, 4_096, 8_192] {
            let place = line - before;
            right(&plain(g, &stream(place % 8, place / 8)), place / 8, next);
        }
    }
}

/// Some in a row, from below each line to behind it: 64 and its multiples, 512, 4,096, which is the cutoff, and the ends of sectors.
fn additions(g: Geometry, next: &mut dyn FnMut(Case)) {
    for line in [64, 128, 512, 4_096, 4_608, 8_192] {
        for short in [1, 7, 8, 9, 15, 16, 17] {
            for preamble in [0, 3, 40] {
                let records = (line - short - 16 - preamble.min(line - short - 16)) / 8;
                let preamble = line - short - 16 - 8 * records;
                let order = [Order::Rising, Order::Falling, Order::Scattered][short % 3];
                let sample = sample(g, order, &stream(preamble, records), 10, 3);
                let mut calls = Vec::new();
                for (i, pulse) in pulses(4).into_iter().enumerate() {
                    calls.extend([(add(pulse.valve, pulse.ticks), 0), (add(9, 0), 41), (summary(), 0)]);
                    calls.extend([(record((records + i) as u32), 0), (record((records + i + 1) as u32), 42)]);
                }
                in_a_row("pulses", &sample, calls).into_iter().for_each(&mut *next);
            }
        }
    }
}

/// Streams that fill their units, with just enough free ones for one more record, and with one too few: 26 comes last.
fn room(g: Geometry, next: &mut dyn FnMut(Case)) {
    let eight = if g == V3 { 8 } else { 1 };
    // Lengths that need a mini sector more, a sector more, or sectors in place of mini sectors.
    let minis = [64, 128, 512, 4_032, 57, 63].map(|length| (length, 0, 1));
    let sectors = [8_192, 12_288, 8_185, 8_191].map(|length| (length, 1, 0));
    let crossing = [(4_088, eight, 0), (4_089, eight + 1, 0), (4_092, eight + 1, 0), (4_095, eight + 1, 0)];
    for (length, free, spare) in minis.into_iter().chain(sectors).chain(crossing) {
        for order in [Order::Rising, Order::Falling, Order::Scattered] {
            let bytes = stream((length - 16) % 8, (length - 16) / 8);
            let enough = sample(g, order, &bytes, free, spare);
            let less = sample(g, order, &bytes, free.saturating_sub(1), spare.saturating_sub(1));
            each(&enough, vec![(add(1, 1), 0), (add(1, 0), 41)], next);
            each(&less, vec![(add(1, 1), 26), (add(1, 0), 41), (summary(), 0), (record(0), 0)], next);
            // A trailer that is not right comes before all of these.
            let mut bytes = bytes;
            bytes[length - 1] = 1;
            let broken = sample(g, order, &bytes, free.saturating_sub(1), spare.saturating_sub(1));
            each(&broken, vec![(add(1, 1), 40), (add(1, 0), 40)], next);
        }
    }
}

/// One addition after the other until there is no room: the last that there is, and one too many.
fn full(g: Geometry, next: &mut dyn FnMut(Case)) {
    // Preamble and records, mini sectors that are free, and how many more records have room in these and in the last unit.
    let streams = [(0, 0, 1, 14), (5, 0, 1, 13), (1, 500, 0, 1), (0, 1_000, 0, 22), (0, 1_022, 0, 0), (3, 1_021, 0, 0)];
    for (preamble, records, spare_minis, more) in streams {
        let sample = sample(g, Order::Scattered, &stream(preamble, records), 0, spare_minis);
        let mut calls: Vec<(Call, u32)> = pulses(more).iter().map(|pulse| (add(pulse.valve, pulse.ticks), 0)).collect();
        calls.extend([(add(1, 1), 26), (add(1, 0), 41), (add(u16::MAX, u32::MAX), 26), (summary(), 0)]);
        in_a_row("pulses", &sample, calls).into_iter().for_each(&mut *next);
    }
}

/// Fewer than 16 bytes, whatever they are, and 16.
fn lengths(g: Geometry, next: &mut dyn FnMut(Case)) {
    for length in 0..16 {
        wrong(&plain(g, &stream(0, 0)[..length]), next);
        wrong(&plain(g, &stream(0, 3)[40 - length..]), next);
        wrong(&plain(g, &vec![0; length]), next);
    }
    for bytes in [[0; 16], [0xFF; 16]] {
        wrong(&plain(g, &bytes), next);
    }
    right(&plain(g, &stream(0, 0)), 0, next);
}

/// Each of the three numbers off by itself: by one, by a record, by a bit, and by what 32 bits do not show.
fn trailers(g: Geometry, next: &mut dyn FnMut(Case)) {
    for (preamble, count) in [(0, 0), (0, 3), (5, 3), (24, 2), (64, 9), (0, 600), (9, 600)] {
        let (distance, total) = (16 + 8 * count as u32, sum(count));
        let length = (preamble + 8 * count + 16) as u32;
        let mut off = |distance: u32, number: u32, total: u64| {
            wrong(&plain(g, &with_trailer(preamble, count, distance, number, total)), next);
        };
        let count = count as u32;
        for by in [1, 7, 8, 9, 16, 0x100, 1 << 31] {
            off(distance.wrapping_add(by), count, total);
            off(distance.wrapping_sub(by), count, total);
            off(distance, count.wrapping_add(by), total);
            off(distance, count.wrapping_sub(by), total);
            off(distance, count, total.wrapping_add(by as u64));
            off(distance, count, total.wrapping_sub(by as u64));
        }
        [0, u32::MAX].into_iter().for_each(|other| off(other, count, total));
        // Distance and count agree, and the first record would lie before the stream's start.
        let beyond = (length - 16) / 8 + 1;
        off(16 + 8 * beyond, beyond, total);
        off(16 + 8 * (beyond + 1), beyond + 1, total);
        // The distance is right in 32 bits alone.
        off(0, u32::MAX - 1, total);
        off(8, u32::MAX, total);
        for more in [1 << 29, 1 << 30, 7 << 29] {
            off(distance, count + more, total);
        }
        // The total is right in 32 bits alone, or in its upper half.
        for other in [total + (1 << 32), total.wrapping_sub(1 << 32), total ^ (1 << 63), total << 32] {
            if other != total {
                off(distance, count, other);
            }
        }
        off(distance, count, u64::MAX);
    }
}

/// The sum of the ticks of these pulses.
fn sum(count: usize) -> u64 {
    pulses(count).iter().map(|pulse| pulse.ticks as u64).sum()
}

/// A stream as above with another trailer.
fn with_trailer(preamble: usize, count: usize, distance: u32, number: u32, total: u64) -> Vec<u8> {
    let mut bytes = stream(preamble, count);
    bytes.truncate(preamble + 8 * count);
    trailer(&mut bytes, distance, number, total);
    bytes
}

/// A trailer that counts a record more or less is right where the preamble's end is one, or the first record goes to the preamble.
fn other_counts(g: Geometry, next: &mut dyn FnMut(Case)) {
    let first = pulses(3)[0].ticks as u64;
    right(&plain(g, &with_trailer(0, 3, 32, 2, sum(3) - first)), 2, next);
    wrong(&plain(g, &with_trailer(0, 3, 32, 2, sum(3))), next);
    let mut front = written(&pulses(5));
    front.truncate(40);
    for (count, is_right) in [(0, true), (1, true), (3, true), (5, true), (6, false)] {
        let ticks: u64 = pulses(5).iter().rev().take(count).map(|pulse| pulse.ticks as u64).sum();
        let mut bytes = front.clone();
        trailer(&mut bytes, 16 + 8 * count as u32, count as u32, ticks);
        let sample = plain(g, &bytes);
        if is_right { right(&sample, count, next) } else { wrong(&sample, next) }
    }
    // The trailer of a longer stream, as an addition that was cut off would leave it.
    let mut longer = stream(4, 4);
    longer.truncate(36);
    wrong(&plain(g, &longer), next);
    longer.extend([0; 8]);
    wrong(&plain(g, &longer), next);
}

/// An old trailer between the records, as an addition that kept it would leave it. It reads as two records, and so the total decides.
fn old_trailers(g: Geometry, next: &mut dyn FnMut(Case)) {
    let mut inner = written(&[Pulse { valve: 2, ticks: u32::MAX }, Pulse { valve: 2, ticks: 8 }]);
    inner.extend([9, 0, 0, 0, 100, 0, 0, 0]);
    // The old trailer's distance and count are the valve 32 and 2 ticks, its total of 2^32 + 7 is the valve 7 and 1 tick.
    let (found, read) = ((1 << 32) + 7, 2 + 1 + 100);
    for (count, total, is_right) in
        [(3, read, true), (3, found + 100, false), (5, found + read, true), (5, found + 100, false)]
    {
        for preamble in [0, 3, 4_000] {
            let mut bytes = stream(preamble, 0);
            bytes.truncate(preamble);
            bytes.extend(&inner);
            trailer(&mut bytes, 16 + 8 * count, count, total);
            let sample = plain(g, &bytes);
            if is_right { right(&sample, count as usize, next) } else { wrong(&sample, next) }
        }
    }
}

/// In the first record, one in the middle and the last: either byte of the zero field, and no ticks, with the total that goes with it.
fn records(g: Geometry, next: &mut dyn FnMut(Case)) {
    for (preamble, count) in [(0, 1), (3, 5), (0, 600), (61, 600)] {
        for number in [0, count / 2, count - 1] {
            let place = preamble + 8 * number;
            for at in [2, 3] {
                for bit in [1, 0x80] {
                    let mut bytes = stream(preamble, count);
                    bytes[place + at] = bit;
                    wrong(&plain(g, &bytes), next);
                }
            }
            let ticks = pulses(count)[number].ticks as u64;
            let mut bytes = with_trailer(preamble, count, 16 + 8 * count as u32, count as u32, sum(count) - ticks);
            bytes[place + 4..place + 8].fill(0);
            wrong(&plain(g, &bytes), next);
        }
    }
}

/// Totals of 32 bits and one more, and totals cut to 32 bits. Additions go on from there.
fn great_totals(g: Geometry, next: &mut dyn FnMut(Case)) {
    let of = |ticks: &[u32]| written(&ticks.iter().map(|&ticks| Pulse { valve: 2, ticks }).collect::<Vec<Pulse>>());
    let most = u32::MAX;
    for ticks in [&[most, 1][..], &[1, most], &[most, most, most, most], &[1 << 31, 1 << 31], &[most - 1, 1]] {
        let (bytes, sample) = (of(ticks), plain(g, &of(ticks)));
        let calls = vec![(add(0, 1), 0), (summary(), 0), (add(u16::MAX, most), 0), (summary(), 0), (record(0), 0)];
        right(&sample, ticks.len(), next);
        in_a_row("pulses", &sample, calls).into_iter().for_each(&mut *next);
        let mut cut = bytes.clone();
        let upper = cut.len() - 4;
        cut[upper..].fill(0);
        if cut != bytes {
            wrong(&plain(g, &cut), next);
        }
    }
}

/// What every call is refused for comes before 40, 41 and 42: the image, the work buffer, the path.
fn refused(g: Geometry, next: &mut dyn FnMut(Case)) {
    let calls = |path: &str| {
        let path = || names::of(path);
        let pulse = |ticks| Pulse { valve: 1, ticks };
        [
            Call::PulseSummary { path: path() },
            Call::PulseRecord { path: path(), number: u32::MAX },
            Call::PulseAdd { path: path(), pulse: pulse(0) },
            Call::PulseAdd { path: path(), pulse: pulse(7) },
        ]
    };
    let valid = site(g, 2);
    for path in ["Site/log", "Site/Jets", "note", "Site", "gone", "/", ""] {
        for call in calls(path) {
            on_refused(&valid, call).into_iter().for_each(&mut *next);
        }
    }
    let paths = [("", 23), ("Site", 23), ("gone", 21), ("Site/gone", 21), ("gone/log", 21), ("log/x", 22)];
    let bad = [("/", 20), ("log/", 20), ("gone/a:b", 20), ("log/x!", 20), ("Site//log", 20)];
    let no_pulses = [("timing", 40), ("Jets", 40), ("site/LOG", 40)];
    for sample in [plain(g, &stream(9, 3)), sample(g, Order::Scattered, &stream(8, 600), 0, 0)] {
        for (path, answer) in paths.into_iter().chain(bad).chain(no_pulses) {
            calls(path).into_iter().for_each(|call| next(with_rows(&sample, call, answer)));
        }
        for call in calls("log") {
            let whole = with_rows(&sample, call, 2);
            next(Case { work_len: whole.work_len - 1, ..whole.clone() });
            next(Case { work_len: 0, ..whole });
        }
    }
}
