//! Pulse streams (W-208).

use crate::calls::pulse::{Pulse, Pulses};
use crate::calls::{ANSWERS, CROSSINGS, Call, Outcome, perform};
use crate::cases::{pulse, pulsed};
use crate::compare::Tally;
use crate::geometry::{V3, V4, VERSIONS};
use crate::images::plan::{Fill, Plan};
use crate::images::pulses::{end_of, written};
use crate::images::{Sample, names};
use crate::model::Model;
use crate::random::Random;
use crate::volume::work_needed;

/// The fixed cases alone have every answer in both versions, and additions over the cutoff with room and without.
#[test]
fn cases_of_pulses() {
    let mut tally = Tally::new();
    VERSIONS.into_iter().for_each(|g| pulse::run(g, &mut |case| assert!(tally.run("pulse", &case).is_some())));
    tally.ask_for_every_answer(&ANSWERS[12..]);
    tally.ask_for_every_answer(&CROSSINGS[2..]);
    assert!(tally.passed > 10_000 && tally.failed == 0, "{}", tally.passed);
}

/// A run without those of one version lacks its answers.
#[test]
fn a_missing_version_is_a_failure() {
    let mut tally = Tally::new();
    pulse::run(V4, &mut |case| drop(tally.run("version 4", &case)));
    tally.ask_for_every_answer(&ANSWERS[12..]);
    assert_eq!(tally.failed as usize, ANSWERS[12..].iter().map(|(_, answers)| answers.len()).sum::<usize>());
}

#[test]
fn lists_of_additions() {
    let mut tally = Tally::new();
    (0..60).for_each(|number| pulsed::run(23, number, false, &mut tally));
    assert!(tally.passed > 5_000 && tally.failed == 0, "{}", tally.passed);
}

/// One stream log of these bytes, and no free unit.
fn with_log(bytes: &[u8]) -> Sample {
    let mut plan = Plan { fill: Fill::Noise, ..Plan::of(V3) };
    plan.add(0, names::of("log"), Some(bytes.len() as u32));
    let mut sample = Sample::build(&plan, &mut Random::of(0, 0));
    let node = sample.layout.nodes[1].clone();
    sample.put_end(&node, bytes);
    sample
}

fn on(image: &mut [u8], call: Call) -> Outcome {
    let work_len = work_needed(image.len());
    perform(&call, image, work_len)
}

fn add(image: &mut [u8], valve: u16, ticks: u32) -> u32 {
    on(image, Call::PulseAdd { path: names::of("log"), pulse: Pulse { valve, ticks } }).answer
}

/// All bytes of the log.
fn log(image: &[u8]) -> Vec<u8> {
    let read = on(&mut image.to_vec(), Call::Read { path: names::of("log"), offset: 0, out: vec![0; 5_000] });
    read.out[..read.values[0] as usize].to_vec()
}

/// Bytes worked out by hand: two bytes of preamble, valve 1 for 300 ticks and valve 2 for 5; then valve 7 for 256.
#[test]
fn bytes_of_the_papers() {
    let two = [
        [0x50, 0x31].as_slice(),
        &[1, 0, 0, 0, 0x2C, 1, 0, 0],
        &[2, 0, 0, 0, 5, 0, 0, 0],
        &[32, 0, 0, 0, 2, 0, 0, 0, 0x31, 1, 0, 0, 0, 0, 0, 0],
    ];
    let three =
        [two[0], two[1], two[2], &[7, 0, 0, 0, 0, 1, 0, 0], &[40, 0, 0, 0, 3, 0, 0, 0, 0x31, 2, 0, 0, 0, 0, 0, 0]];
    let mut image = with_log(&two.concat()).image;
    let path = || names::of("log");
    assert_eq!(on(&mut image, Call::PulseSummary { path: path() }).values, [2, 305, 0]);
    assert_eq!(on(&mut image, Call::PulseRecord { path: path(), number: 0 }).values, [1, 300, 0]);
    assert_eq!(on(&mut image, Call::PulseRecord { path: path(), number: 1 }).values, [2, 5, 0]);
    let none = on(&mut image, Call::PulseRecord { path: path(), number: 2 });
    assert_eq!((none.answer, none.values), (42, [0; 3]));
    assert_eq!(add(&mut image, 7, 0), 41);
    assert_eq!(log(&image), two.concat());
    assert_eq!(add(&mut image, 7, 256), 0);
    assert_eq!(log(&image), three.concat());
    assert_eq!(on(&mut image, Call::PulseSummary { path: path() }).values, [3, 561, 0]);
    // What behind the end was noise is zero up to the end of the chain.
    let sample = with_log(&two.concat());
    let first = V3.place(sample.layout.mini_stream[0]) + 64 * sample.layout.nodes[1].units[0] as usize;
    assert_eq!(image[first + 42..first + 64], [0; 22]);
}

/// The order of the answers: 40 before 41 and 42, and 26 last.
#[test]
fn order_of_the_papers() {
    let mut full = with_log(&written(&[Pulse { valve: 1, ticks: 1 }; 14])).image;
    assert_eq!([add(&mut full, 1, 1), add(&mut full, 1, 0)], [26, 41]);
    let mut broken = written(&[Pulse { valve: 1, ticks: 1 }; 14]);
    broken[127] = 1;
    let mut broken = with_log(&broken).image;
    assert_eq!([add(&mut broken, 1, 1), add(&mut broken, 1, 0)], [40, 40]);
    assert_eq!(on(&mut broken, Call::PulseRecord { path: names::of("log"), number: 99 }).answer, 40);
}

/// The two ways to take a stream's bytes for pulses agree: from the end back, and by what would be written of them.
#[test]
fn two_ways_to_the_same_pulses() {
    let (mut right, mut wrong) = (0, 0);
    for number in 0..20_000 {
        let mut r = Random::of(24, number);
        let length = r.pick(&[0, 1, 15, 16, 17, 24, 31, 40, 100]) + r.index(3);
        let mut bytes = vec![0; length];
        r.fill(&mut bytes);
        if let Some(end) = end_of(length, &mut r) {
            bytes[length - end.len()..].copy_from_slice(&end);
            if r.one_in(2) {
                let place = r.index(length);
                bytes[place] = r.pick(&[0, 1, 8, 16, 24, 0x20, 0xFF]);
            }
        }
        let rows = Model::of(&with_log(&bytes)).rows;
        let pulses = Pulses::of(&bytes).map(|pulses| (pulses.total, pulses.records));
        let by_row = rows[1].pulses().map(|all| (all.iter().map(|pulse| pulse.ticks as u64).sum(), all));
        assert_eq!(pulses, by_row, "{number}");
        if pulses.is_some() { right += 1 } else { wrong += 1 }
    }
    assert!(right > 5_000 && wrong > 5_000, "{right} {wrong}");
}
