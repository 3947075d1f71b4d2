//! Trees of siblings in which one is created at each place, and from which each one is removed (W-203): every tree of a few, and large
//! ones. Other trees, whose entries are red wherever they may be, must stay.

use super::names::with_rows;
use super::objects::calls;
use super::{Case, in_a_row};
use crate::breaks::edit::{CHILD, COLOUR, LEFT, RIGHT};
use crate::calls::Call;
use crate::geometry::Geometry;
use crate::images::plan::{Fill, Order, Plan, Shape};
use crate::images::{Sample, names};
use crate::number::NOSTREAM;
use crate::random::Random;

/// Names in order, with names before, between and behind them.
pub const NAMES: [&str; 6] = ["b", "d", "ab", "ad", "aab", "aad"];
const BETWEEN: [&str; 7] = ["a", "c", "aa", "ac", "aaa", "aac", "aae"];
/// The most of which every tree is made.
const FEW: usize = 5;

pub fn cases(g: Geometry) -> Vec<Case> {
    let mut cases = Vec::new();
    for count in 0..=FEW {
        for (number, tree) in trees(0, count).iter().enumerate() {
            each_place(&site(g, count, tree, number), number, &NAMES[..count], &BETWEEN[..count + 1], &mut cases);
        }
    }
    in_each_order(g, &mut cases);
    for shape in [Shape::Random, Shape::Balanced, Shape::RightOnly, Shape::LeftOnly, Shape::ZigZag] {
        large(g, shape, &mut cases);
    }
    cases
}

/// A tree of objects that are numbered in order: its top, and of each object the left and the right one below it. Each stands before
/// those below it.
#[derive(Clone)]
pub struct Tree {
    top: Option<usize>,
    sides: Vec<(usize, [Option<usize>; 2])>,
}

/// Every tree of these objects.
pub fn trees(from: usize, to: usize) -> Vec<Tree> {
    if from == to {
        return vec![Tree { top: None, sides: Vec::new() }];
    }
    let mut all = Vec::new();
    for top in from..to {
        for left in trees(from, top) {
            for right in trees(top + 1, to) {
                let own = vec![(top, [left.top, right.top])];
                all.push(Tree { top: Some(top), sides: [own, left.sides.clone(), right.sides].concat() });
            }
        }
    }
    all
}

/// A storage with so many objects of every kind, and beside it others. `turn` says which of them is what.
fn plan(g: Geometry, count: usize, turn: usize) -> Plan {
    let some = Plan { fill: Fill::Noise, red_once_in: 1, rubbish_once_in: 1, spare_directory: 1, ..Plan::of(g) };
    let mut plan = Plan { order: Order::Falling, scattered_entries: true, ..some };
    let site = plan.add(0, names::of("Site"), None);
    for (i, name) in NAMES[..count].iter().enumerate() {
        let size = [Some(70), None, Some(5_000), Some(0), None][(i + turn) % 5];
        plan.add(site, names::of(name), size);
    }
    for (i, name) in ["x", "y", "z"].into_iter().enumerate() {
        plan.add(0, names::of(name), Some(100 * i as u32));
    }
    // The second kind of storage holds a tree, too.
    if let Some(full) = (0..count).find(|i| (i + turn) % 5 == 4) {
        for name in ["x", "y", "z"] {
            plan.add(site + 1 + full, names::of(name), Some(65));
        }
    }
    plan
}

/// An image of that plan, in which the objects of the storage have this tree. Some are red that may be.
pub fn site(g: Geometry, count: usize, tree: &Tree, turn: usize) -> Sample {
    let mut random = Random::of(count as u64, turn as u64);
    let mut sample = Sample::build(&plan(g, count, turn), &mut random);
    let entries: Vec<u32> = sample.layout.nodes[2..2 + count].iter().map(|node| node.entry).collect();
    let holder = sample.layout.nodes[1].entry;
    hang(&mut sample, holder, &entries, tree);
    let mut red = vec![false; count];
    for &(object, sides) in &tree.sides {
        for below in sides.into_iter().flatten() {
            red[below] = !red[object] && random.one_in(2);
        }
    }
    for (object, red) in red.into_iter().enumerate() {
        let at = sample.layout.entry(entries[object]) + COLOUR;
        sample.image[at] = !red as u8;
    }
    sample
}

/// Links these entries, which are all in this one, to this tree.
pub fn hang(sample: &mut Sample, holder: u32, entries: &[u32], tree: &Tree) {
    let entry = |object: Option<usize>| object.map_or(NOSTREAM, |object| entries[object]);
    sample.set_field(holder, CHILD, entry(tree.top));
    for &(object, [left, right]) in &tree.sides {
        sample.set_field(entries[object], LEFT, entry(left));
        sample.set_field(entries[object], RIGHT, entry(right));
    }
}

fn path(name: &str) -> Vec<u16> {
    names::of(&format!("Site/{name}"))
}

/// One more at each place, and one less.
fn each_place(sample: &Sample, turn: usize, there: &[&str], between: &[&str], cases: &mut Vec<Case>) {
    for (i, name) in between.iter().enumerate() {
        let [stream, storage, _] = calls(&path(name));
        cases.push(with_rows(sample, if (i + turn) % 2 == 0 { stream } else { storage }, 0));
    }
    for (i, name) in there.iter().enumerate() {
        let answer = if (i + turn) % 5 == 4 { 28 } else { 0 };
        cases.push(with_rows(sample, Call::Remove { path: path(name) }, answer));
    }
}

/// Of each tree of three all are removed, in each order, and created again in another.
fn in_each_order(g: Geometry, cases: &mut Vec<Case>) {
    let orders = [[0, 1, 2], [0, 2, 1], [1, 0, 2], [1, 2, 0], [2, 0, 1], [2, 1, 0]];
    for tree in trees(0, 3) {
        for (number, order) in orders.into_iter().enumerate() {
            let removed = order.map(|object| (Call::Remove { path: path(NAMES[object]) }, 0));
            let created = orders[orders.len() - 1 - number].map(|object| (calls(&path(NAMES[object]))[0].clone(), 0));
            let storage = |answer| (Call::Remove { path: names::of("Site") }, answer);
            let list = [
                vec![storage(28)],
                removed.to_vec(),
                created.to_vec(),
                vec![storage(28)],
                removed.to_vec(),
                vec![storage(0)],
            ];
            cases.extend(in_a_row("siblings", &site(g, 3, &tree, 0), list.concat()));
        }
    }
}

/// Forty siblings in the root: each is removed, and one is created beside it.
fn large(g: Geometry, shape: Shape, cases: &mut Vec<Case>) {
    let mut plan = Plan { shape, red_once_in: 2, scattered_entries: true, spare_directory: 1, ..Plan::of(g) };
    let name = |number: usize| names::of(&format!("{}{number:03}", "n".repeat(number % 3)));
    for number in 0..40 {
        plan.add(0, name(10 * number), Some(0));
    }
    let sample = Sample::build(&plan, &mut Random::of(8, 8));
    for number in 0..40 {
        cases.push(with_rows(&sample, Call::Remove { path: name(10 * number) }, 0));
        cases.push(with_rows(&sample, Call::CreateStorage { path: name(10 * number + 3) }, 0));
    }
}
