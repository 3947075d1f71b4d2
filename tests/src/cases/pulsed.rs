//! Lists of additions to one pulse stream, with other calls between them that do not edit it (W-208). The pulses are kept beside the
//! image: after each call the stream has those found at the start and those that were added, and so has its sum.

use super::lists::List;
use crate::calls::pulse::{Pulse, Pulses};
use crate::calls::{Call, Outcome};
use crate::compare::Tally;
use crate::draw;
use crate::geometry::{Geometry, VERSIONS};
use crate::images::plan::{Fill, Order, Plan};
use crate::images::pulses::{end_of, written};
use crate::images::{Sample, names, random_plan};
use crate::model::Model;
use crate::random::Random;
use crate::volume::work_needed;

/// The steps of a random list.
const STEPS: usize = 50;
/// The first lists are long ones, one for each version: from no records on to the last that there is room for.
const LONG: u64 = 2;
/// The records of a long one: over 64, 512 and 4,096 bytes and more sectors.
const RECORDS: u32 = 1_100;

/// Runs one list, up to the first call that fails; `shown` prints each call and its answer.
pub fn run(seed: u64, number: u64, shown: bool, tally: &mut Tally) {
    let mut r = Random::of(seed.rotate_left(56), number);
    let name = format!("seed {seed} pulsed {number}");
    if number < LONG {
        let sample = long_sample(VERSIONS[number as usize], &mut r);
        let mut kept = Kept::on(sample, 1, name, r, shown);
        kept.to_the_last(tally);
    } else {
        let (sample, node) = sample(&mut r);
        let mut kept = Kept::on(sample, node, name, r, shown);
        for _ in 0..STEPS {
            if kept.step(tally).is_none() {
                return;
            }
        }
    }
}

/// A stream of no records in the only mini sector that is not free, and as many sectors and mini sectors as so many records need.
fn long_sample(g: Geometry, r: &mut Random) -> Sample {
    let sectors = (RECORDS * 8 + 16).div_ceil(g.sector as u32);
    let some = Plan { fill: Fill::Noise, free: sectors, spare_minis: 63, rubbish_once_in: 1, ..Plan::of(g) };
    let mut plan = Plan { order: Order::Scattered, mini_order: Order::Scattered, ..some };
    let node = plan.add(0, names::of("log"), Some(16));
    let mut sample = Sample::build(&plan, r);
    let node = sample.layout.nodes[node].clone();
    sample.put_end(&node, &written(&[]));
    sample
}

/// A random image with one right pulse stream at least, and which object that is.
fn sample(r: &mut Random) -> (Sample, usize) {
    let mut plan = random_plan::scarce(r);
    let streams: Vec<usize> = (0..plan.objects.len()).filter(|&i| plan.objects[i].size.is_some()).collect();
    let chosen = r.pick(&streams);
    let size = plan.objects[chosen].size.unwrap_or(0).max(16);
    // Often close below the cutoff, with room on both sides or not.
    plan.objects[chosen].size = Some(if r.one_in(4) { 4_096 - r.between(1, 120) } else { size });
    let mut sample = Sample::build(&plan, r);
    sample.lay_pulses(r);
    let node = sample.layout.nodes[chosen].clone();
    let end = end_of(node.size.unwrap_or(0) as usize, r).expect("room for a trailer");
    sample.put_end(&node, &end);
    (sample, chosen)
}

/// A list, the path of its pulse stream, and what that stream holds by the calls so far.
struct Kept {
    list: List,
    r: Random,
    path: Vec<u16>,
    preamble: Vec<u8>,
    pulses: Vec<Pulse>,
}

impl Kept {
    /// On the stream that is the object of this number.
    fn on(sample: Sample, object: usize, name: String, r: Random, shown: bool) -> Kept {
        let row = Model::of(&sample).rows[object].clone();
        let bytes = row.bytes.expect("a stream");
        let pulses = Pulses::of(&bytes).expect("a pulse stream").records;
        let preamble = bytes[..bytes.len() - 16 - 8 * pulses.len()].to_vec();
        let path = row.path.join(&(b'/' as u16));
        Kept { list: List::on(sample, name, r.clone(), shown), r, path, preamble, pulses }
    }

    /// An addition, or any call that leaves the stream, and then a look at it.
    fn step(&mut self, tally: &mut Tally) -> Option<()> {
        let call = if self.r.one_in(2) { self.addition() } else { draw::call(&self.list.model, &mut self.r) };
        if self.edits(&call) {
            return Some(());
        }
        let work_len = self.list.work_len();
        self.make(call, None, work_len, tally)?;
        self.look(tally)
    }

    /// One addition after the other, as many as there is room for.
    fn to_the_last(&mut self, tally: &mut Tally) -> Option<()> {
        let work_len = work_needed(self.list.image.len());
        loop {
            let Call::PulseAdd { path, pulse } = self.addition() else { panic!("an addition") };
            let pulse = Pulse { ticks: pulse.ticks.max(1), ..pulse };
            let answer = self.make(Call::PulseAdd { path, pulse }, None, work_len, tally)?.answer;
            if answer != 0 || self.pulses.len().is_multiple_of(61) {
                self.look(tally)?;
            }
            if answer != 0 {
                break;
            }
        }
        let all = self.pulses.len() as u32 >= RECORDS;
        tally.pass(&self.list.name, if all { Ok(()) } else { Err("too few had room".to_string()) })
    }

    fn addition(&mut self) -> Call {
        let respelled = names::respelled(&self.path, || self.r.one_in(2));
        Call::PulseAdd { path: respelled, pulse: draw::pulses::pulse(&mut self.r) }
    }

    /// Whether the call, if it is not refused, does something to the stream and is no addition.
    fn edits(&self, call: &Call) -> bool {
        let meant = |path: &[u16]| self.list.model.meant(path);
        match call {
            Call::Format(_) => true,
            Call::Overwrite { path, .. } | Call::SetLength { path, .. } | Call::Remove { path } => {
                meant(path).is_ok_and(|row| Ok(row) == meant(&self.path))
            }
            _ => false,
        }
    }

    /// Has a call run. An accepted addition to the stream is kept.
    fn make(&mut self, call: Call, answer: Option<u32>, work_len: usize, tally: &mut Tally) -> Option<Outcome> {
        let added = match &call {
            Call::PulseAdd { path, pulse } if self.list.model.meant(path) == self.list.model.meant(&self.path) => {
                Some(*pulse)
            }
            _ => None,
        };
        let outcome = self.list.make(call, answer, work_len, |name, case| tally.run(name, case))?;
        self.pulses.extend(added.filter(|_| outcome.answer == 0));
        Some(outcome)
    }

    /// Count and total are those of the pulses kept, each record is one of them, and the stream holds nothing else.
    fn look(&mut self, tally: &mut Tally) -> Option<()> {
        let (work_len, count) = (work_needed(self.list.image.len()), self.pulses.len());
        let sum: u64 = self.pulses.iter().map(|pulse| pulse.ticks as u64).sum();
        let summary = self.make(Call::PulseSummary { path: self.path.clone() }, Some(0), work_len, tally)?;
        let mut right = summary.values == [count as u64, sum, 0];
        let numbers = [count.checked_sub(1), (count > 0).then(|| self.r.index(count))];
        for number in numbers.into_iter().flatten() {
            let call = Call::PulseRecord { path: self.path.clone(), number: number as u32 };
            let Pulse { valve, ticks } = self.pulses[number];
            right &= self.make(call, Some(0), work_len, tally)?.values == [valve as u64, ticks as u64, 0];
        }
        let row = self.list.model.meant(&self.path).map(|row| self.list.model.rows[row].bytes.clone());
        right &= row == Ok(Some([&self.preamble[..], &written(&self.pulses)].concat()));
        tally.pass(&self.list.name, if right { Ok(()) } else { Err("a pulse faded".to_string()) })
    }
}
