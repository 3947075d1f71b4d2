//! Reads by an entry number (W-212).

use crate::calls::{ANSWERS, Call, Outcome, perform};
use crate::cases::papers::site;
use crate::cases::{cursor, paged};
use crate::compare::Tally;
use crate::geometry::{V3, V4, VERSIONS};
use crate::images::Sample;
use crate::model::Model;
use crate::number::NOSTREAM;
use crate::random::Random;
use crate::volume::work_needed;

/// The fixed cases alone have every answer in both versions.
#[test]
fn cases_of_reads_at_entries() {
    let mut tally = Tally::new();
    VERSIONS.into_iter().for_each(|g| cursor::run(g, &mut |case| assert!(tally.run("cursor", &case).is_some())));
    tally.ask_for_every_answer(&ANSWERS[11..12]);
    assert!(tally.passed > 3_000 && tally.failed == 0, "{}", tally.passed);
}

/// A run without those of one version lacks its answers.
#[test]
fn a_missing_version_is_a_failure() {
    let mut tally = Tally::new();
    cursor::run(V4, &mut |case| drop(tally.run("version 4", &case)));
    tally.ask_for_every_answer(&ANSWERS[11..12]);
    assert_eq!(tally.failed as usize, ANSWERS[11].1.len());
}

#[test]
fn streams_in_pieces() {
    let mut tally = Tally::new();
    (0..300).for_each(|number| paged::run(17, number, false, &mut tally));
    assert!(tally.passed > 3_000 && tally.failed == 0, "{}", tally.passed);
}

fn read_at(sample: &Sample, entry: u32, position: u64, len: usize) -> Outcome {
    let call = Call::ReadAt { entry, position, out: vec![b'#'; len] };
    perform(&call, &mut sample.image.clone(), work_needed(sample.image.len()))
}

/// The papers' site: entry 0 is the root, 1 the storage, 2 and 3 its streams of 5,000 and 70 bytes. 33 comes before 24.
#[test]
fn numbers_of_the_papers() {
    let answer = |entry, position| read_at(&site(V3), entry, position, 9).answer;
    assert_eq!([0, 1, 4, 5, NOSTREAM].map(|entry| answer(entry, 0)), [33; 5]);
    assert_eq!([0, 1, 4, 5, NOSTREAM].map(|entry| answer(entry, 5_001)), [33; 5]);
    assert_eq!([answer(2, 5_000), answer(2, 5_001), answer(3, 70), answer(3, 71)], [0, 24, 0, 24]);
    let refused = read_at(&site(V3), 3, 71, 9);
    assert_eq!(refused, Outcome { answer: 24, values: [0; 3], out: vec![b'#'; 9] });
    assert_eq!(read_at(&site(V3), 3, 70, 9), Outcome { answer: 0, values: [0; 3], out: vec![b'#'; 9] });
    assert_eq!(read_at(&site(V3), 3, 66, 9).values, [4, 0, 0]);
}

/// By its path a stream gives what it gives by its entry.
#[test]
fn reads_by_path_and_by_entry() {
    for number in 0..300 {
        let mut r = Random::of(18, number);
        let sample = Sample::random(&mut r);
        let (rows, work_len) = (Model::of(&sample).rows, work_needed(sample.image.len()));
        for row in rows.iter().filter(|row| row.bytes.is_some()).take(5) {
            let (path, offset, len) = (row.path.join(&(b'/' as u16)), r.below(6_000) as u64, r.index(600));
            let by_path = Call::Read { path, offset, out: vec![b'#'; len] };
            let due = perform(&by_path, &mut sample.image.clone(), work_len);
            assert_eq!(read_at(&sample, row.entry, offset, len), due, "{number}");
        }
    }
}
