//! What creating and removing do to an image (W-203).

use super::held;
use super::lengths::Seen;
use crate::breaks::edit::{CHILD, COLOUR, LEFT, RIGHT};
use crate::calls::find::find;
use crate::calls::siblings::within;
use crate::number::*;
use crate::volume::Volume;
use crate::volume::directory::Directory;
use crate::volume::entry::{BLANK, Entry, STREAM};
use crate::volume::header::zero;
use std::collections::HashMap;
use std::ops::Range;

type Places = Result<Vec<Range<usize>>, &'static str>;

/// The lowest blank entry is the object, black and empty, and one link that named nothing names it.
pub fn created(before: &[u8], after: &[u8], path: &[u16], kind: u8) -> Places {
    let (old, new) = (open(before), open(after));
    let number = entry_at(&new, path);
    held(
        old.directory.entries().position(|entry| entry.kind() == BLANK) == Some(number),
        "not the lowest blank entry",
    )?;
    let (_, name) = parted(path);
    new_object(&new.directory.entry(number), name, kind)?;
    let mut changed = links(&new.directory).filter(|&(entry, link, now)| now != linked(&old, entry, link));
    let (entry, link, now) = changed.find(|&(entry, _, _)| entry != number).ok_or("nothing names it")?;
    held(changed.all(|(entry, _, _)| entry == number), "another link changed")?;
    held(linked(&old, entry, link) == NOSTREAM && now == number as u32, "it does not hang as a leaf")?;
    Ok(vec![place(&new, number, 0, ENTRY), place(&new, entry, link, 4)])
}

/// What the papers say of each field.
fn new_object(entry: &Entry, name: &[u16], kind: u8) -> Result<(), &'static str> {
    held(entry.name().eq(name.iter().copied()), "not the name of the call")?;
    held(entry.kind() == kind && !entry.is_red(), "another type, or red")?;
    held([entry.left(), entry.right(), entry.child()] == [NOSTREAM; 3], "a link of the new object")?;
    held(entry.start() == if kind == STREAM { END } else { 0 }, "the start of the new object")?;
    let rest = [&entry.bytes[2 * name.len()..64], &entry.bytes[80..116], &entry.bytes[120..]];
    held(rest.into_iter().all(zero), "something else in the new entry")
}

/// The entry is blank and the chain free; the others of its tree are black and in order, and the right one has its place.
pub fn removed(before: &[u8], after: &[u8], path: &[u16]) -> Places {
    let (old, new) = (open(before), open(after));
    let (number, holder) = (entry_at(&old, path), entry_at(&old, parted(path).0));
    let blank = new.directory.entry(number);
    held(blank.kind() == BLANK && blank.holds(number), "the entry is not blank")?;
    let mut places = vec![place(&old, number, 0, ENTRY), place(&old, holder, CHILD, 4)];
    if old.directory.entry(number).kind() == STREAM {
        let stream = Seen::of(before, path);
        let cells = if stream.is_small() { &new.mini.chains.cells } else { &new.sectors.cells };
        held(stream.chain.iter().all(|&unit| cells[unit as usize] == FREE), "its chain is not free")?;
        places.extend(stream.fields());
    }
    let (tree, left) = (spans(&old.directory, holder), spans(&new.directory, holder));
    held(left == without(&tree, number), "the tree is not the one that is due")?;
    for (sibling, _) in left {
        held(!new.directory.entry(sibling).is_red(), "a sibling is red")?;
        places.extend([place(&old, sibling, COLOUR, 1), place(&old, sibling, LEFT, 8)]);
    }
    Ok(places)
}

fn open(image: &[u8]) -> Volume<'_> {
    Volume::open(image).expect("a valid image")
}

fn entry_at(volume: &Volume, path: &[u16]) -> usize {
    find(volume, path).expect("an object at this path").entry
}

/// The path of the storage, and the last name.
fn parted(path: &[u16]) -> (&[u16], &[u16]) {
    let slash = path.iter().rposition(|&unit| unit == b'/' as u16);
    slash.map_or((&[], path), |at| (&path[..at], &path[at + 1..]))
}

/// Each link of each entry, and what it names.
fn links(directory: &Directory) -> impl Iterator<Item = (usize, usize, u32)> + '_ {
    let of =
        |(number, entry): (usize, Entry)| [LEFT, RIGHT, CHILD].map(|link| (number, link, u32_at(entry.bytes, link)));
    directory.entries().enumerate().flat_map(of)
}

fn linked(volume: &Volume, entry: usize, link: usize) -> u32 {
    u32_at(volume.directory.entry(entry).bytes, link)
}

fn place(volume: &Volume, entry: usize, at: usize, len: usize) -> Range<usize> {
    let start = volume.geometry.entry(&volume.directory.sectors, entry as u32) + at;
    start..start + len
}

/// The objects of a storage in order, each with the places in that order of all in its own part of the tree. These make out the
/// tree.
type Spans = Vec<(usize, Range<usize>)>;

fn spans(directory: &Directory, holder: usize) -> Spans {
    let order = within(directory, holder);
    let places: HashMap<u32, usize> = order.iter().enumerate().map(|(at, &entry)| (entry as u32, at)).collect();
    let mut spans = vec![0..0; order.len()];
    let mut parts = vec![(directory.entry(holder).child(), 0..order.len())];
    while let Some((top, span)) = parts.pop() {
        if let Some(&at) = places.get(&top) {
            let entry = directory.entry(top as usize);
            parts.push((entry.left(), span.start..at));
            parts.push((entry.right(), at + 1..span.end));
            spans[at] = span;
        }
    }
    order.into_iter().zip(spans).collect()
}

/// The same without this object. With both sides below it, the one right before it in order is the greatest of its left side: that
/// one gets its part, and leaves those that it was in.
fn without(spans: &Spans, number: usize) -> Spans {
    let at = spans.iter().position(|&(entry, _)| entry == number).expect("one of them");
    let own = &spans[at].1;
    let both = own.start < at && at + 1 < own.end;
    let lower = |bound: usize| if bound > at { bound - 1 } else { bound };
    let left = spans.iter().enumerate().filter(|&(i, _)| i != at);
    left.map(|(i, (entry, span))| match both {
        true if i + 1 == at => (*entry, own.start..own.end - 1),
        true if span.end == at => (*entry, span.start..at - 1),
        _ => (*entry, lower(span.start)..lower(span.end)),
    })
    .collect()
}
