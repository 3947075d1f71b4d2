//! Trees of siblings: any shape that keeps the order, with legal colours.

use super::names;
use super::plan::{Object, Plan, Shape};
use crate::number::NOSTREAM;
use crate::random::Random;

/// The links of one entry.
#[derive(Clone)]
pub struct Links {
    pub left: u32,
    pub right: u32,
    pub child: u32,
    pub red: bool,
    /// Named by a child field.
    pub top: bool,
}

impl Links {
    fn none() -> Links {
        Links { left: NOSTREAM, right: NOSTREAM, child: NOSTREAM, red: false, top: false }
    }
}

/// The field that names a subtree's top, with the object that has it.
#[derive(Clone, Copy)]
enum Field {
    Left(usize),
    Right(usize),
    Child(usize),
}

/// A run of siblings in order that still needs a tree, with the turn of a zigzag.
struct Run {
    field: Field,
    from: usize,
    to: usize,
    turn: bool,
}

/// The links of all objects; entries[i] is object i's entry number.
pub fn links(plan: &Plan, entries: &[u32], random: &mut Random) -> Vec<Links> {
    let mut links = vec![Links::none(); plan.objects.len()];
    for (parent, siblings) in siblings_in_order(&plan.objects).into_iter().enumerate() {
        let mut runs = vec![Run { field: Field::Child(parent), from: 0, to: siblings.len(), turn: false }];
        while let Some(run) = runs.pop() {
            if run.from == run.to {
                continue;
            }
            let middle = top_of(plan.shape, &run, random);
            let object = siblings[middle];
            let black_needed = hang(&mut links, run.field, entries[object]);
            links[object].top = matches!(run.field, Field::Child(_));
            links[object].red = !black_needed && plan.red_once_in > 0 && random.one_in(plan.red_once_in);
            let turn = !run.turn;
            runs.push(Run { field: Field::Left(object), from: run.from, to: middle, turn });
            runs.push(Run { field: Field::Right(object), from: middle + 1, to: run.to, turn });
        }
    }
    links
}

/// Writes the field; whether what it names must be black.
fn hang(links: &mut [Links], field: Field, entry: u32) -> bool {
    match field {
        Field::Child(parent) => {
            links[parent].child = entry;
            true
        }
        Field::Left(parent) => {
            links[parent].left = entry;
            links[parent].red
        }
        Field::Right(parent) => {
            links[parent].right = entry;
            links[parent].red
        }
    }
}

fn top_of(shape: Shape, run: &Run, random: &mut Random) -> usize {
    match shape {
        Shape::Random => run.from + random.index(run.to - run.from),
        Shape::Balanced => run.from + (run.to - run.from) / 2,
        Shape::RightOnly => run.from,
        Shape::LeftOnly => run.to - 1,
        Shape::ZigZag if run.turn => run.to - 1,
        Shape::ZigZag => run.from,
    }
}

/// For each object the objects in it, in the order of their names.
fn siblings_in_order(objects: &[Object]) -> Vec<Vec<usize>> {
    let mut inside = vec![Vec::new(); objects.len()];
    for (number, object) in objects.iter().enumerate().skip(1) {
        inside[object.parent].push(number);
    }
    for siblings in &mut inside {
        siblings.sort_by_cached_key(|&number| names::key(&objects[number].name));
    }
    inside
}
