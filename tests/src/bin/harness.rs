//! harness SEED [IMAGES [CALLS [LISTS]]]   all cases: random images to validate, random calls, random lists of calls, as
//!                                         many lists on opened volumes, on fresh images and on repaired ones, and listings
//!                                         read back, streams read in pieces and pulses added, one image each for ten lists
//! harness SEED only KIND NUMBER           one case again: KIND is fixed, samples, small, large, tables, calls, deep, filled,
//!                                         crowded, lists, opened, formatted, repaired, paged, pulsed, listed

use cfb_tests::breaks::uses::Uses;
use cfb_tests::calls::{ANSWERS, CROSSINGS, OPENED_ANSWERS};
#[cfg(feature = "edits")]
use cfb_tests::cases::opened;
use cfb_tests::cases::{
    Case, calls::Calls, crowded, deep, filled, fixed, formatted, large, listed, lists, paged, pulsed, repaired,
    samples, small::Cases, tables,
};
use cfb_tests::compare::Tally;

/// So many random images use every break.
const ENOUGH: u64 = 100_000;
/// So many random calls get every answer.
const ENOUGH_CALLS: u64 = 100_000;
/// With so many lists, too, every call on an opened volume.
const ENOUGH_LISTS: u64 = 1_000;
/// For so many lists one listing is read back and its paths are found, which takes some hundred calls.
const LISTS_FOR_A_LISTING: u64 = 10;
/// For so many lists the streams of one image are read in pieces.
const LISTS_FOR_PAGES: u64 = 10;
/// For so many lists pulses are added to one stream, in a list of fifty steps.
const LISTS_FOR_PULSES: u64 = 10;

fn main() {
    let words: Vec<String> = std::env::args().skip(1).collect();
    let number = |i: usize| words.get(i).map(|word| word.parse::<u64>().expect("a number"));
    let seed = number(0).unwrap_or(1);
    let only = words.get(1).is_some_and(|word| word == "only");
    let tally = if only {
        one(seed, words.get(2).map_or("", String::as_str), number(3).expect("the case's number"))
    } else {
        all(seed, number(1).unwrap_or(300_000), number(2).unwrap_or(100_000), number(3).unwrap_or(10_000))
    };
    println!("{} passed, {} failed", tally.passed, tally.failed);
    std::process::exit((tally.failed > 0) as i32);
}

fn all(seed: u64, images: u64, calls: u64, list_count: u64) -> Tally {
    let mut tally = Tally::new();
    let mut cases = Cases::new(seed);
    fixed::run(&mut |number, case| drop(tally.run(&format!("fixed {number}"), &case)));
    each(samples::cases(), &mut |number, case| drop(tally.run(&format!("samples {number}"), &case)));
    for number in 0..images {
        let case = cases.case(number);
        tally.run(&format!("seed {seed} small {number}"), &case);
    }
    let mut large_ran = |number, case: Case| drop(tally.run(&format!("seed {seed} large {number}"), &case));
    for image in 0..large::ALL_IMAGES {
        large::run(&mut cases, seed, image, &mut large_ran);
    }
    let mut tables_ran = |number, case: Case| drop(tally.run(&format!("seed {seed} tables {number}"), &case));
    let unused = tables::run(seed, &mut cases.uses, &mut tables_ran);
    for rule in unused {
        tally.fail("never used with many DIFAT sectors", &rule);
    }
    let mut random_calls = Calls::new(seed);
    for number in 0..calls {
        let case = random_calls.case(number);
        tally.run(&format!("seed {seed} calls {number}"), &case);
    }
    deep::run(seed, &mut |number, case| drop(tally.run(&format!("seed {seed} deep {number}"), &case)));
    for number in 0..filled::LISTS {
        filled::run(seed, number, false, &mut tally);
    }
    for number in 0..crowded::LISTS {
        crowded::run(seed, number, false, &mut tally);
    }
    for number in 0..list_count {
        lists::run(seed, number, false, &mut tally);
    }
    #[cfg(feature = "edits")]
    for number in 0..list_count {
        opened::run(seed, number, false, &mut tally);
    }
    for number in 0..list_count {
        formatted::run(seed, number, false, &mut tally);
    }
    for number in 0..list_count {
        repaired::run(seed, number, false, &mut tally);
    }
    for number in 0..list_count / LISTS_FOR_PAGES {
        paged::run(seed, number, false, &mut tally);
    }
    for number in 0..list_count / LISTS_FOR_PULSES {
        pulsed::run(seed, number, false, &mut tally);
    }
    for number in 0..list_count / LISTS_FOR_A_LISTING {
        listed::run(seed, number, false, &mut tally);
    }
    report(&mut tally, &cases, images, calls, list_count);
    tally
}

fn each(cases: Vec<Case>, then: &mut dyn FnMut(u64, Case)) {
    for (number, case) in cases.into_iter().enumerate() {
        then(number as u64, case);
    }
}

/// In a long run a rule that was never broken and an answer that never came count as failures.
fn report(tally: &mut Tally, cases: &Cases, images: u64, calls: u64, list_count: u64) {
    tally.report();
    cases.uses.report();
    if images >= ENOUGH {
        for rule in cases.uses.unused() {
            tally.fail("never used", &rule);
        }
    }
    if calls >= ENOUGH_CALLS {
        tally.ask_for_every_answer(ANSWERS);
        tally.ask_for_every_answer(&CROSSINGS);
    }
    if cfg!(feature = "edits") && calls >= ENOUGH_CALLS && list_count >= ENOUGH_LISTS {
        tally.ask_for_every_answer(OPENED_ANSWERS);
    }
}

fn one(seed: u64, kind: &str, number: u64) -> Tally {
    let mut tally = Tally::new();
    if kind == "lists" {
        lists::run(seed, number, true, &mut tally);
        return tally;
    }
    if kind == "formatted" {
        formatted::run(seed, number, true, &mut tally);
        return tally;
    }
    if kind == "repaired" {
        repaired::run(seed, number, true, &mut tally);
        return tally;
    }
    if kind == "paged" {
        paged::run(seed, number, true, &mut tally);
        return tally;
    }
    if kind == "pulsed" {
        pulsed::run(seed, number, true, &mut tally);
        return tally;
    }
    if kind == "listed" {
        listed::run(seed, number, true, &mut tally);
        return tally;
    }
    if kind == "filled" {
        filled::run(seed, number, true, &mut tally);
        return tally;
    }
    if kind == "crowded" {
        crowded::run(seed, number, true, &mut tally);
        return tally;
    }
    if kind == "opened" {
        #[cfg(feature = "edits")]
        opened::run(seed, number, true, &mut tally);
        #[cfg(not(feature = "edits"))]
        tally.fail(kind, "these calls are not linked");
        return tally;
    }
    let mut wanted = |made: u64, case: Case| {
        if made == number {
            println!("{kind} {number}: {}", case.description());
            tally.run(&format!("seed {seed} {kind} {number}"), &case);
        }
    };
    match kind {
        "fixed" => fixed::run(&mut wanted),
        "samples" => each(samples::cases(), &mut wanted),
        "large" => large::run(&mut Cases::new(seed), seed, number / 10, &mut wanted),
        "tables" => drop(tables::run(seed, &mut Uses::default(), &mut wanted)),
        "calls" => wanted(number, Calls::new(seed).case(number)),
        "deep" => deep::run(seed, &mut wanted),
        _ => wanted(number, Cases::new(seed).case(number)),
    }
    tally
}
