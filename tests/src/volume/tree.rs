//! Group 15: the trees of siblings.

use super::directory::Directory;
use super::entry::BLANK;
use crate::number::NOSTREAM;
use std::cmp::Ordering::Less;

/// A subtree still to be looked at: its top, the nearest names it must lie between, and whether its top must be black.
struct Part {
    top: u32,
    above: Option<usize>,
    below: Option<usize>,
    black: bool,
}

impl Part {
    fn whole_tree(top: u32) -> Part {
        Part { top, above: None, below: None, black: true }
    }
}

/// Goes from the root over everything that is named, each entry once, with a list of parts in place of recursion.
pub fn holds(directory: &Directory) -> bool {
    let mut reached = vec![false; directory.count()];
    let mut parts = vec![Part::whole_tree(directory.root().child())];
    while let Some(part) = parts.pop() {
        if part.top == NOSTREAM {
            continue;
        }
        let number = part.top as usize;
        // Entry 0 is never named, and no entry twice.
        if number == 0 || number >= reached.len() || reached[number] {
            return false;
        }
        reached[number] = true;
        if !top_holds(directory, &part) {
            return false;
        }
        let entry = directory.entry(number);
        let red = entry.is_red();
        parts.push(Part { top: entry.left(), above: part.above, below: Some(number), black: red });
        parts.push(Part { top: entry.right(), above: Some(number), below: part.below, black: red });
        parts.push(Part::whole_tree(entry.child()));
    }
    let is_object = directory.entries().map(|entry| entry.kind() != BLANK);
    is_object.zip(reached).skip(1).all(|(object, reached)| object == reached)
}

/// The top of a part is an object of the right colour, between the names given.
fn top_holds(directory: &Directory, part: &Part) -> bool {
    let entry = directory.entry(part.top as usize);
    let order = |low: usize, high: usize| directory.entry(low).name_order(&directory.entry(high)) == Less;
    entry.kind() != BLANK
        && !(part.black && entry.is_red())
        && part.above.is_none_or(|low| order(low, part.top as usize))
        && part.below.is_none_or(|high| order(part.top as usize, high))
}
