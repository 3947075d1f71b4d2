//! Names and paths with small letters and their capitals (W-211), from each end of each range, and with units around those.

use super::Case;
use super::names::{calls, on, with, with_rows};
use crate::calls::Call;
use crate::images::Sample;
use crate::images::letters::{self, IN_ORDER, OUT_OF_PLAIN_ORDER, UNLIKE};
use crate::images::names;
use crate::images::plan::{Fill, Plan, Shape};
use crate::images::write;
use crate::random::Random;

pub fn cases() -> Vec<Case> {
    let mut cases = Vec::new();
    for (small, capital) in letters::pairs() {
        equal(&[small], &[capital], &mut cases);
    }
    for (small, capital) in letters::ends() {
        for (one, other) in with(&[small]).iter().zip(&with(&[capital])).skip(1) {
            equal(one, other, &mut cases);
        }
    }
    for (one, other) in UNLIKE {
        for (one, other) in with(&[one]).iter().zip(&with(&[other])).step_by(3) {
            different(one, other, &mut cases);
        }
    }
    order(&mut cases);
    words(&mut cases);
    cases
}

/// Two spellings of one name: each leads to an object that is spelled in the other way, and they are no siblings.
fn equal(one: &[u16], other: &[u16], cases: &mut Vec<Case>) {
    for (kept, asked) in [(one, other), (other, one)] {
        let sample = in_itself(kept);
        cases.push(with_rows(&sample, Call::Validate, 0));
        cases.push(with_rows(&sample, Call::List { out: vec![b'#'; 900] }, 0));
        cases.push(with_rows(&sample, Call::Find { path: asked.to_vec() }, 0));
        cases.extend(calls(asked).into_iter().skip(1).map(|call| with_rows(&sample, call, 23)));
        cases.extend(calls(&below(asked, asked)).map(|call| with_rows(&sample, call, 0)));
        cases.extend(calls(&below(kept, asked)).map(|call| with_rows(&sample, call, 0)));
        for shape in [Shape::LeftOnly, Shape::RightOnly] {
            let siblings = in_this_order(&[kept, asked], shape);
            cases.push(on(&siblings, Call::Validate, 15));
            cases.push(on(&siblings, Call::Find { path: asked.to_vec() }, 15));
        }
    }
}

/// Two names, of which one does not lead to an object that has the other; they may be siblings.
fn different(one: &[u16], other: &[u16], cases: &mut Vec<Case>) {
    for (kept, asked) in [(one, other), (other, one)] {
        let sample = in_itself(kept);
        cases.extend(calls(asked).map(|call| with_rows(&sample, call, 21)));
        cases.extend(calls(&below(kept, asked)).map(|call| with_rows(&sample, call, 21)));
        cases.extend(calls(&below(asked, kept)).map(|call| with_rows(&sample, call, 21)));
    }
    let mut plan = plan();
    plan.add(0, one.to_vec(), Some(70));
    plan.add(0, other.to_vec(), Some(80));
    let siblings = Sample::build(&plan, &mut Random::of(0, 0));
    cases.push(with_rows(&siblings, Call::Validate, 0));
    cases.push(with_rows(&siblings, Call::List { out: vec![b'#'; 900] }, 0));
    for name in [one, other] {
        cases.extend(calls(name).map(|call| with_rows(&siblings, call, 0)));
    }
}

/// Each two units that stand in order, and all of them; exchanged they do not.
fn order(cases: &mut Vec<Case>) {
    let listed = (0..IN_ORDER.len()).flat_map(|last| (0..last).map(move |first| (IN_ORDER[first], IN_ORDER[last])));
    for (first, last) in listed.chain(OUT_OF_PLAIN_ORDER.into_iter().flatten().copied()) {
        for (first, last) in with(&[first]).iter().zip(&with(&[last])).step_by(6) {
            cases.push(with_rows(&in_this_order(&[first, last], Shape::LeftOnly), Call::Validate, 0));
            cases.push(on(&in_this_order(&[last, first], Shape::RightOnly), Call::Validate, 15));
        }
    }
    let all: Vec<[u16; 1]> = IN_ORDER.map(|unit| [unit]).to_vec();
    for shape in [Shape::Balanced, Shape::LeftOnly, Shape::RightOnly, Shape::ZigZag] {
        let names: Vec<&[u16]> = all.iter().map(|name| &name[..]).collect();
        let sample = in_this_order(&names, shape);
        cases.push(with_rows(&sample, Call::Validate, 0));
        cases.push(with_rows(&sample, Call::List { out: vec![b'#'; 900] }, 0));
        for name in names {
            cases.push(with_rows(&sample, Call::Find { path: name.to_vec() }, 0));
            cases.push(with_rows(&sample, Call::Find { path: names::respelled(name, || true) }, 0));
        }
    }
}

/// Whole words, in which only letters of these ranges have another case.
fn words(cases: &mut Vec<Case>) {
    let same = [
        ("Ærø", "æRØ"),
        ("Größe", "GRÖßE"),
        ("þing÷Ÿ", "ÞING÷ÿ"),
        ("Οδός", "οΔός"),
        ("ΣΊΣΥΦΟς", "σΊσυφος"),
        ("Ёлка Їжак", "ёЛКА їЖАК"),
        ("Джеј Ћ", "дЖЕЈ ћ"),
    ];
    for (one, other) in same {
        equal(&names::of(one), &names::of(other), cases);
    }
    let others = [
        ("Größe", "GROSSE"),
        ("Größe", "Gro\u{308}ße"),
        ("Οδός", "ΟΔΌΣ"),
        ("Οδός", "ΟΔός "),
        ("Œuvre", "œuvre"),
        ("Łódź", "łódź"),
        ("Ґанок", "ґанок"),
        ("2÷1", "2×1"),
    ];
    for (one, other) in others {
        different(&names::of(one), &names::of(other), cases);
    }
}

fn plan() -> Plan {
    Plan { fill: Fill::Noise, free: 9, spare_minis: 3, ..Plan::bare() }
}

fn below(storage: &[u16], name: &[u16]) -> Vec<u16> {
    [storage, name].join(&(b'/' as u16))
}

/// A storage of this name, and in it a stream of the same.
fn in_itself(name: &[u16]) -> Sample {
    let mut plan = plan();
    let storage = plan.add(0, name.to_vec(), None);
    plan.add(storage, name.to_vec(), Some(70));
    plan.add(0, names::of("another name"), Some(5_000));
    Sample::build(&plan, &mut Random::of(0, 0))
}

/// Siblings in the order given, whatever that of their names is.
fn in_this_order(all: &[&[u16]], shape: Shape) -> Sample {
    let mut plan = Plan { shape, ..plan() };
    for number in 0..all.len() {
        plan.add(0, vec![0x1000 + number as u16], Some(70));
    }
    let mut sample = Sample::build(&plan, &mut Random::of(0, 0));
    for (number, &name) in all.iter().enumerate() {
        let at = sample.layout.entry(sample.layout.nodes[number + 1].entry);
        write::name(&mut sample.image, at, name);
        sample.layout.nodes[number + 1].name = name.to_vec();
    }
    sample
}
