//! A list of calls on the longest image: a stream grown to all its free sectors, overwritten, read back, by its entry too, cut, taken
//! over the cutoff, and filled with pulses to the last that there is room for. Where the library's edits are linked, the volume is opened once before them and closed behind them.

use super::large::MIB_64;
use super::lists::{List, OneVolume};
use crate::calls::Call;
use crate::calls::pulse::Pulse;
use crate::compare::Tally;
use crate::geometry::{Geometry, VERSIONS};
use crate::images::plan::{Fill, Order, Plan};
use crate::images::pulses::{some, written};
use crate::images::{Sample, names};
use crate::number::NOSTREAM;
use crate::random::Random;
use crate::volume::work_needed;

/// There is one list for each version.
pub const LISTS: u64 = 2;

/// Runs the list, up to the first call that fails; `shown` prints each call and its answer.
pub fn run(seed: u64, number: u64, shown: bool, tally: &mut Tally) {
    let mut r = Random::of(seed.rotate_left(24), number);
    let g = VERSIONS[number as usize];
    let sample = sample(g, &mut r);
    let work_len = work_needed(sample.image.len());
    let most = sample.layout.free.len() * g.sector;
    let calls = [calls(g, most, &mut r), pulses(most, &mut r)].concat();
    let list = List::on(sample, format!("seed {seed} filled {number}"), r, shown);
    let Some(mut volume) = OneVolume::open(list, work_len, tally) else { return };
    if calls.into_iter().all(|(call, answer)| volume.make(call, Some(answer)).is_some()) {
        volume.close();
    }
}

/// The tables and two other streams lie scattered among free sectors full of noise. In version 3 the upper half of each size
/// is rubbish.
fn sample(g: Geometry, r: &mut Random) -> Sample {
    let free = Plan { sectors: Some(g.count(MIB_64)), fill: Fill::Noise, ..Plan::of(g) };
    let mut plan = Plan { order: Order::Scattered, spare_minis: 9, rubbish_once_in: 1, ..free };
    plan.add(0, names::of("log"), Some(0));
    plan.add(0, names::of("Jets"), Some(70));
    plan.add(0, names::of("timing"), Some(1_000_000));
    Sample::build(&plan, r)
}

/// Calls with their answers, for a stream that is empty while so many bytes of sectors are free.
fn calls(g: Geometry, most: usize, r: &mut Random) -> Vec<(Call, u32)> {
    let length = |length: usize| Call::SetLength { path: names::of("log"), length: length as u64 };
    let read = |offset: usize, len: usize| {
        let out = vec![b'#'; len];
        Call::Read { path: names::of("LOG"), offset: offset as u64, out }
    };
    // The entries are in the order of the plan: the root, the stream, and two others.
    let read_at = |entry: u32, position: usize, len: usize| {
        let out = vec![b'#'; len];
        Call::ReadAt { entry, position: position as u64, out }
    };
    let mut overwrite = |offset: usize, len: usize| {
        let mut bytes = vec![0; len];
        r.fill(&mut bytes);
        Call::Overwrite { path: names::of("log"), offset: offset as u64, bytes }
    };
    vec![
        (length(most + 1), 26),
        (length(most), 0),
        (length(most + 1), 26),
        (overwrite(0, most), 0),
        (read(0, most), 0),
        (overwrite(most - 10, 11), 24),
        (overwrite(most - 40_000_001, 1_000), 0),
        (read(most - 40_000_100, 2_000), 0),
        (read(most - 1, 10), 0),
        (read_at(1, most - 40_000_100, 2_000), 0),
        (read_at(1, most - 1, 10), 0),
        (read_at(1, most, 10), 0),
        (read_at(1, most + 1, 10), 24),
        (read_at(3, 1_000_001, 10), 24),
        (read_at(0, most + 1, 10), 33),
        (read_at(4, 0, 10), 33),
        (read_at(NOSTREAM, 0, 0), 33),
        (length(most / 2 + 7), 0),
        (Call::Overwrite { path: names::of("Jets"), offset: 0, bytes: vec![b'!'; 70] }, 0),
        (length(4_100), 0),
        // Below the cutoff and back: nine mini sectors are free.
        (length(577), 26),
        (length(576), 0),
        (length(most + 1), 26),
        (length(most), 0),
        (length(1), 0),
        (length(most - g.sector + 1), 0),
        (read(0, most), 0),
        (Call::List { out: vec![b'#'; 100] }, 0),
        (length(0), 0),
        (Call::Validate, 0),
    ]
}

/// As many records as there is room for but one, behind a preamble; then the last, and one too many.
fn pulses(most: usize, r: &mut Random) -> Vec<(Call, u32)> {
    let path = || names::of("log");
    let (preamble, count) = (5, (most - 5 - 16) / 8 - 1);
    let bytes = written(&(0..count).map(|_| some(r)).collect::<Vec<Pulse>>());
    let (length, last) = ((preamble + bytes.len()) as u64, count as u32);
    let add = |ticks| Call::PulseAdd { path: path(), pulse: Pulse { valve: 9, ticks } };
    vec![
        (Call::SetLength { path: path(), length }, 0),
        (Call::PulseSummary { path: path() }, 40),
        (Call::Overwrite { path: path(), offset: preamble as u64, bytes }, 0),
        (Call::PulseSummary { path: path() }, 0),
        (Call::PulseRecord { path: path(), number: last - 1 }, 0),
        (Call::PulseRecord { path: path(), number: last }, 42),
        (add(0), 41),
        (add(u32::MAX), 0),
        (Call::PulseSummary { path: path() }, 0),
        (Call::PulseRecord { path: path(), number: last }, 0),
        (add(1), 26),
        (add(0), 41),
    ]
}
