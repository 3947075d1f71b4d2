//! The papers' values for find, read, list and the edits.

use crate::calls::{ANSWERS, Call, Outcome, perform};
use crate::cases;
use crate::cases::papers::{self, site};
use crate::compare::Tally;
use crate::geometry::{V3, VERSIONS};
use crate::images::{Sample, names, plan::*};
use crate::model::Model;
use crate::random::Random;
use crate::volume::work_needed;

/// What the independent call and the rows both give.
fn on(sample: &Sample, call: Call) -> Outcome {
    let work_len = work_needed(sample.image.len());
    let outcome = perform(&call, &mut sample.image.clone(), work_len);
    assert_eq!(outcome, Model::of(sample).perform(&call, work_len));
    outcome
}

fn find(path: &str) -> Outcome {
    let found = VERSIONS.map(|g| on(&site(g), Call::Find { path: names::of(path) }));
    assert_eq!(found[0], found[1]);
    found[0].clone()
}

#[test]
fn listing_of_the_papers() {
    let text = "objects 3\nD 0 Site\nF 5000 Site/log\nF 70 Site/Jets\n";
    let list = |len| on(&site(V3), Call::List { out: vec![b'#'; len] });
    let whole = list(text.len() + 3);
    assert_eq!((whole.answer, whole.values[0]), (0, text.len() as u64));
    assert_eq!(whole.out, [text, "###"].concat().into_bytes());
    assert_eq!(list(text.len()).answer, 0);
    assert_eq!(list(text.len() - 1), Outcome { answer: 27, values: [0; 3], out: vec![b'#'; text.len() - 1] });
}

#[test]
fn units_print_as_the_papers_say() {
    let mut plan = Plan::bare();
    plan.add(0, vec![0x1F, 0x20, 0x7E, 0x7F, 0xE9, 0xD83D], Some(0));
    let list = on(&Sample::build(&plan, &mut Random::of(0, 0)), Call::List { out: vec![0; 99] });
    assert_eq!(&list.out[..list.values[0] as usize], b"objects 1\nF 0 \\001F ~\\007F\\00E9\\D83D\n");
}

#[test]
fn finds_of_the_papers() {
    assert_eq!(find("").values, [0, 5, 5 * 64]);
    assert_eq!(find("site").values, [1, 1, 0]);
    assert_eq!(find("Site/LOG").values, [2, 2, 5_000]);
    let answers = |paths: &[&str]| paths.iter().map(|path| find(path).answer).collect::<Vec<u32>>();
    let long = "Site/".to_string() + &"x".repeat(32);
    assert_eq!(answers(&["/", "/Site", "Site/", "Site//log", "gone/:", "a\\b", "a\0", &long]), [20; 8]);
    assert_eq!(answers(&["!", "!Site", "Site/l!g", "Site/log!", "gone/!", "Site/log/x!"]), [20; 6]);
    assert_eq!(answers(&["gone", "Site/gone", "gone/log/x", "log", &long[..36]]), [21; 5]);
    assert_eq!(answers(&["\"Site", "Si te", "Site/\"", "Site/log ", "Site/lo\u{121}", "\u{2100}"]), [21; 6]);
    assert_eq!(answers(&["Site/log/x", "Site/log/gone/x", "Site/Jets/log"]), [22; 3]);
}

#[test]
fn reads_of_the_papers() {
    let read = |path: &str, offset, len| {
        let outcome = on(&site(V3), Call::Read { path: names::of(path), offset, out: vec![0; len] });
        (outcome.answer, outcome.values[0])
    };
    assert_eq!(read("Site/Jets", 0, 100), (0, 70));
    assert_eq!(read("Site/Jets", 60, 4), (0, 4));
    assert_eq!(read("Site/Jets", 70, 4), (0, 0));
    assert_eq!(read("Site/Jets", 71, 0), (24, 0));
    assert_eq!(read("Site/Jets", u64::MAX, 4), (24, 0));
    assert_eq!(read("Site", 9, 4), (23, 0));
    assert_eq!(read("", 9, 4), (23, 0));
}

/// Calls, rows and properties agree on the papers' cases and on those of names, and on the answers that the papers give.
#[test]
fn cases_of_the_papers() {
    let mut tally = Tally::new();
    let both = VERSIONS.into_iter().flat_map(|g| papers::cases(g).into_iter().chain(cases::names::cases(g)));
    for (number, case) in both.chain(cases::folding::cases()).enumerate() {
        assert!(tally.run(&format!("case {number}"), &case).is_some());
    }
}

/// Growing wipes what a cut left behind, up to the end of the chain; cutting changes no data byte.
#[test]
fn stale_bytes_are_wiped_by_growth_alone() {
    let mut image = site(V3).image;
    let mut set_length = |length| {
        let call = Call::SetLength { path: names::of("Site/Jets"), length };
        let work_len = work_needed(image.len());
        assert_eq!(perform(&call, &mut image, work_len).answer, 0);
        image.clone()
    };
    let cut = set_length(3);
    let first = site(V3);
    let place = |m: u32| first.layout.geometry.place(first.layout.mini_stream[0]) + 64 * m as usize;
    let units = &first.layout.nodes[3].units;
    assert_eq!(cut[place(units[0])..][..64], first.image[place(units[0])..][..64]);
    let grown = set_length(4);
    assert_eq!(grown[place(units[0])..][..3], cut[place(units[0])..][..3]);
    assert_eq!(grown[place(units[0])..][3..64], [0; 61]);
}

/// A run that had only the papers' cases lacks answers, and counts each as a failure.
#[test]
fn a_missing_answer_is_a_failure() {
    let mut tally = Tally::new();
    VERSIONS.into_iter().flat_map(papers::cases).for_each(|case| drop(tally.run("papers", &case)));
    tally.ask_for_every_answer(ANSWERS);
    let given = 2 + 2 + 2; // 0 and 27 of list, 0 and 24 of overwrite, 0 and 26 of set_len
    let all: usize = ANSWERS.iter().map(|(_, answers)| answers.len()).sum();
    assert_eq!(tally.failed as usize, 2 * (all - given));
}
