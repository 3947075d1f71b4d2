//! Group 15: the trees of siblings.

use super::kinds::link_title;
use crate::reader::entry::*;
use crate::reader::finding::Finding;
use crate::reader::names::order;
use crate::reader::number::*;
use crate::reader::volume::Volume;
use std::cmp::Ordering;

/// A subtree still to be looked at.
#[derive(Clone, Copy)]
struct Part {
    /// The entry whose field names its top, and that field.
    from: u32,
    field: usize,
    /// The nearest entries between whose names it lies.
    after: Option<u32>,
    before: Option<u32>,
}

impl Part {
    fn children(of: u32) -> Part {
        Part { from: of, field: CHILD, after: None, before: None }
    }

    /// The three parts below its top.
    fn below(self, top: u32) -> [Part; 3] {
        let left = Part { from: top, field: LEFT, before: Some(top), ..self };
        let right = Part { from: top, field: RIGHT, after: Some(top), ..self };
        [left, right, Part::children(top)]
    }
}

/// Goes from the root over everything that is named, each entry once, with a list of parts in place of recursion.
pub fn check(volume: &Volume) -> Result<(), Finding> {
    let mut reached = vec![false; volume.entry_count() as usize];
    let mut parts = vec![Part::children(0)];
    while let Some(part) = parts.pop() {
        let Some(from) = volume.entry(part.from) else { continue };
        let top = from.link(part.field);
        if top == NOSTREAM {
            continue;
        }
        link(volume, &from, part.field, &reached)?;
        let Some(entry) = volume.entry(top) else { continue };
        reached[top as usize] = true;
        colours(volume, &from, part.field, &entry)?;
        names(volume, &entry, part)?;
        parts.extend(part.below(top));
    }
    all_reached(volume, &reached)
}

/// A link names an object that was not named before.
fn link(volume: &Volume, from: &Entry, field: usize, reached: &[bool]) -> Result<(), Finding> {
    let top = from.link(field);
    let title = link_title(field);
    let text = match volume.entry(top) {
        None => format!("the {title} is {}; the directory has only {} entries", link_text(top), reached.len()),
        Some(_) if top == 0 => format!("the {title} is 0, the root; nothing may name it"),
        Some(entry) if entry.kind() == BLANK => format!("the {title} is {top}, a blank entry"),
        Some(entry) if reached[top as usize] => {
            format!("the {title} is {}, which another field names too", entry.title())
        }
        Some(_) => return Ok(()),
    };
    Err(Finding::new(15, text).entry(&volume.image, from, field))
}

/// A tree's top is black, and no red entry stands below a red one.
fn colours(volume: &Volume, from: &Entry, field: usize, entry: &Entry) -> Result<(), Finding> {
    let text = match field {
        _ if !entry.is_red() => return Ok(()),
        CHILD => format!("the entry is red, but it is the top of the tree in {}; it should be black", from.title()),
        _ if from.is_red() => {
            format!("the entry is red, and so is {} right above it; one should be black", from.title())
        }
        _ => return Ok(()),
    };
    Err(Finding::new(15, text).entry(&volume.image, entry, COLOUR))
}

/// The name lies between those of the entries whose sides it is on.
fn names(volume: &Volume, entry: &Entry, part: Part) -> Result<(), Finding> {
    let side = |other: Option<u32>, due: Ordering, words: [&str; 2]| {
        let other = other.and_then(|number| volume.entry(number))?;
        let found = order(&entry.name(), &other.name());
        let verb = if found == Ordering::Equal { "is equal to" } else { words[0] };
        let text = format!("the name {verb} that of {}, on whose {} side it hangs", other.title(), words[1]);
        (found != due).then(|| Finding::new(15, text).entry(&volume.image, entry, 0))
    };
    let wrong = side(part.after, Ordering::Greater, ["comes before", "right"])
        .or_else(|| side(part.before, Ordering::Less, ["comes after", "left"]));
    wrong.map_or(Ok(()), Err)
}

fn all_reached(volume: &Volume, reached: &[bool]) -> Result<(), Finding> {
    let lost = |entry: &Entry| entry.number != 0 && entry.kind() != BLANK && !reached[entry.number as usize];
    let Some(entry) = volume.entries().find(lost) else { return Ok(()) };
    let kind = if entry.kind() == STORAGE { "storage" } else { "stream" };
    let text = format!("no path from the root leads to this {kind}: no field of a tree names the entry");
    Err(Finding::new(15, text).entry(&volume.image, &entry, 0))
}
