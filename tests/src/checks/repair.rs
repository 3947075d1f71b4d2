//! Repairs (W-213).

use crate::breaks::edit::COLOUR;
use crate::calls::{ANSWERS, Call, Outcome, perform};
use crate::cases::{damage, repair};
use crate::compare::Tally;
use crate::geometry::{V3, VERSIONS};
use crate::images::plan::Plan;
use crate::images::{Sample, names};
use crate::number::*;
use crate::random::Random;
use crate::volume::{validate, work_needed};

#[test]
fn cases_of_repairs() {
    let mut tally = Tally::new();
    for g in VERSIONS {
        for (number, case) in repair::cases(g).into_iter().enumerate() {
            assert!(tally.run(&format!("case {number}"), &case).is_some());
        }
    }
    tally.ask_for_every_answer(&ANSWERS[10..11]);
    assert!(tally.passed > 3_000 && tally.failed == 0, "{}", tally.passed);
}

fn repaired(image: &mut [u8]) -> Outcome {
    perform(&Call::Repair { spare: vec![7; image.len()] }, image, work_needed(image.len()))
}

/// Damage is undone to the last byte but for colours, which are all black then, and a second repair finds nothing.
#[test]
fn damage_is_undone() {
    for number in 0..3_000 {
        let mut r = Random::of(21, number);
        let mut sample = Sample::random(&mut r);
        let mut due = sample.image.clone();
        let colours = sample.layout.nodes.iter().map(|node| sample.layout.entry(node.entry) + COLOUR);
        colours.for_each(|at| due[at] = 1);
        damage::some(&mut sample, &mut r);
        assert_eq!(repaired(&mut sample.image).answer, 0, "{number}");
        assert!(sample.image == due, "{number}");
        assert_eq!(repaired(&mut sample.image).values, [0; 3]);
    }
}

/// A FAT cell from N on, one that nobody owns, and two colours; of a cell that was free before and of a black entry nothing is counted.
#[test]
fn numbers_that_differ() {
    let mut plan = Plan { free: 2, ..Plan::bare() };
    plan.add(0, names::of("Jets"), None);
    let Sample { mut image, layout } = Sample::build(&plan, &mut Random::of(0, 0));
    put_u32(&mut image, layout.cell(layout.sectors), END);
    put_u32(&mut image, layout.cell(layout.sectors + 1), FREE);
    put_u32(&mut image, layout.cell(layout.free[0]), END);
    image[layout.entry(0) + COLOUR] = 0;
    image[layout.entry(layout.nodes[1].entry) + COLOUR] = 7;
    assert_eq!(repaired(&mut image), Outcome { answer: 0, values: [4, 0, 0], out: vec![0; image.len()] });
}

/// The number is that of what the steps left, not of the image: freed cells from N on are no more 12, and what a step spoils is 14.
#[test]
fn numbers_of_the_outcome() {
    let mut plan = Plan::bare();
    plan.add(0, names::of("log"), Some(0));
    plan.add(0, names::of("Jets"), Some(0));
    let Sample { mut image, layout } = Sample::build(&plan, &mut Random::of(0, 0));
    put_u32(&mut image, layout.cell(layout.sectors), END);
    put_u32(&mut image, layout.entry(0) + 76, NOSTREAM);
    assert_eq!(validate(&image, work_needed(image.len())), 12);
    assert_eq!(repaired(&mut image).answer, 15);
    let Sample { mut image, layout } = Sample::build(&Plan::of(V3), &mut Random::of(0, 0));
    put_u32(&mut image, 60, layout.directory[0]);
    put_u32(&mut image, 64, 1);
    assert_eq!(validate(&image, work_needed(image.len())), 16);
    let before = image.clone();
    assert_eq!(repaired(&mut image).answer, 14);
    assert!(image == before);
}
