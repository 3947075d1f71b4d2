//! Removing a stream or a storage (W-203): what it owns becomes free, another takes its place in the tree of its storage, that tree
//! becomes black, and its entry blank.

use super::find::{follow, names};
use super::patch::{Patch, cell, field};
use super::siblings::{self, CHILD, LEFT, RIGHT};
use crate::number::*;
use crate::volume::Volume;
use crate::volume::directory::Directory;
use crate::volume::entry::STREAM;

const COLOUR: usize = 67;
const BLACK: u8 = 1;

pub fn remove(volume: &Volume, path: &[u16]) -> Result<Vec<Patch>, u32> {
    let names = names(path)?;
    let number = follow(volume, &names)?;
    let Some((_, before)) = names.split_last() else { return Err(31) };
    let (directory, entry) = (&volume.directory, volume.directory.entry(number));
    if entry.child() != NOSTREAM {
        return Err(28);
    }
    let holder = follow(volume, before)?;
    let mut patches = if entry.kind() == STREAM { released(volume, number) } else { Vec::new() };
    for (above, link, below) in relinked(directory, holder, number) {
        patches.push(field(volume, above, link, &below.to_le_bytes()));
    }
    let others = siblings::within(directory, holder).into_iter().filter(|&sibling| sibling != number);
    patches.extend(others.map(|sibling| field(volume, sibling, COLOUR, &[BLACK])));
    patches.push(field(volume, number, 0, &blank_entry()));
    Ok(patches)
}

/// The stream is cut to nothing: the cells of its chain become free, and no byte of it changes.
fn released(volume: &Volume, stream: usize) -> Vec<Patch> {
    let entry = volume.directory.entry(stream);
    let (chains, table) = match entry.size() {
        0..CUTOFF => (&volume.mini.chains, &volume.mini.fat),
        _ => (&volume.sectors, &volume.tables.fat),
    };
    chains.units(entry.start()).map(|unit| cell(volume.geometry, table, unit, FREE)).collect()
}

/// An entry, a link of it, and what the link names from now on.
type Link = (usize, usize, u32);

/// The links that change.
fn relinked(directory: &Directory, holder: usize, number: usize) -> Vec<Link> {
    let (left, right) = (directory.entry(number).left(), directory.entry(number).right());
    let (above, link) = named_by(directory, holder, number);
    if left == NOSTREAM || right == NOSTREAM {
        return vec![(above, link, if left == NOSTREAM { right } else { left })];
    }
    // The greatest of the left side, and the one above it there, if there is one.
    let (mut heir, mut above_heir) = (left as usize, None);
    while directory.entry(heir).right() != NOSTREAM {
        above_heir = Some(heir);
        heir = directory.entry(heir).right() as usize;
    }
    let mut links = vec![(above, link, heir as u32), (heir, RIGHT, right)];
    if let Some(above_heir) = above_heir {
        links.push((above_heir, RIGHT, directory.entry(heir).left()));
        links.push((heir, LEFT, left));
    }
    links
}

/// The entry, and the field in it, that names this one: its storage's, or a sibling's.
fn named_by(directory: &Directory, holder: usize, number: usize) -> (usize, usize) {
    let number = number as u32;
    if directory.entry(holder).child() == number {
        return (holder, CHILD);
    }
    let siblings = siblings::within(directory, holder).into_iter();
    let mut links = siblings.flat_map(|sibling| {
        let entry = directory.entry(sibling);
        [(sibling, LEFT, entry.left()), (sibling, RIGHT, entry.right())]
    });
    let (above, link, _) = links.find(|&(_, _, below)| below == number).expect("one names it");
    (above, link)
}

/// All zero but the links, which name nothing.
pub fn blank_entry() -> [u8; ENTRY] {
    let mut bytes = [0; ENTRY];
    for link in [LEFT, RIGHT, CHILD] {
        put_u32(&mut bytes, link, NOSTREAM);
    }
    bytes
}
