//! The sample files, by the independent calls alone.

use crate::calls::{Call, perform};
use crate::cases::samples::cases;
use crate::compare::Tally;
use crate::files::{answer, expected, in_folder, samples};
use crate::images::names;
use crate::volume::work_needed;
use std::fs;

#[test]
fn every_sample_is_there() {
    for folder in ["", "documents"] {
        let files: Vec<String> = in_folder(&samples(folder)).into_keys().collect();
        assert_eq!(files, expected(&samples(folder)).into_keys().collect::<Vec<String>>());
    }
    let kept = in_folder(&samples("programs"));
    let answers = expected(&samples("programs"));
    assert!(kept.keys().any(|name| answer(&answers[name]) == 0) && kept.keys().any(|name| answer(&answers[name]) != 0));
}

#[test]
fn cases_of_samples_pass() {
    let mut tally = Tally::new();
    for case in cases() {
        tally.run(&case.description(), &case);
    }
    assert_eq!(tally.failed, 0);
    assert!(tally.passed >= 30);
}

/// The stream of the documents' example.
#[test]
fn stream_of_the_documents() {
    for name in ["doc001.cfb", "doc003.cfb", "doc003-list.cfb"] {
        let mut image = fs::read(samples("documents").join(name)).expect("a sample");
        let path = names::of("STORAGE 1/stream 1");
        let work_len = work_needed(image.len());
        let read = perform(&Call::Read { path, offset: 0, out: vec![0; 545] }, &mut image, work_len);
        assert_eq!((read.answer, read.values[0]), (0, 544));
        assert_eq!(read.out[..544], *b"Data for stream 1".repeat(32));
    }
}
