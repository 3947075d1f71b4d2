//! Creating a stream or a storage (W-203): the lowest blank entry is written, and hung into the tree of its storage as a leaf.

use super::find::{child, follow, holder, names};
use super::patch::{Patch, field};
use super::siblings::{CHILD, LEFT, RIGHT};
use crate::number::*;
use crate::volume::Volume;
use crate::volume::entry::{BLANK, Entry, STREAM, fold};
use std::cmp::Ordering;

/// Only names before the last have to be there.
pub fn create(volume: &Volume, path: &[u16], kind: u8) -> Result<Vec<Patch>, u32> {
    let names = names(path)?;
    let Some((name, before)) = names.split_last() else { return Err(29) };
    let holder = holder(volume, follow(volume, before)?)?;
    if child(volume, holder, name).is_some() {
        return Err(29);
    }
    let blank = volume.directory.entries().position(|entry| entry.kind() == BLANK).ok_or(30u32)?;
    let (above, link) = leaf(volume, holder, name);
    Ok(vec![field(volume, blank, 0, &new_entry(name, kind)), field(volume, above, link, &(blank as u32).to_le_bytes())])
}

/// The entry, and the field in it, that names nothing yet and is to name an object of this name.
fn leaf(volume: &Volume, holder: usize, name: &[u16]) -> (usize, usize) {
    let (mut above, mut link, mut next) = (holder, CHILD, volume.directory.entry(holder).child());
    while next != NOSTREAM {
        above = next as usize;
        let entry = volume.directory.entry(above);
        (link, next) = match order(name, &entry) {
            Ordering::Less => (LEFT, entry.left()),
            _ => (RIGHT, entry.right()),
        };
    }
    (above, link)
}

fn order(name: &[u16], entry: &Entry) -> Ordering {
    let folded = |units: &[u16]| -> (usize, Vec<u16>) { (units.len(), units.iter().copied().map(fold).collect()) };
    folded(name).cmp(&folded(&entry.name().collect::<Vec<u16>>()))
}

/// Black, empty, with no links; all else is zero.
pub fn new_entry(name: &[u16], kind: u8) -> [u8; ENTRY] {
    let mut bytes = [0; ENTRY];
    for (i, &unit) in name.iter().enumerate() {
        put_u16(&mut bytes, 2 * i, unit);
    }
    put_u16(&mut bytes, 64, 2 * (name.len() as u16 + 1));
    (bytes[66], bytes[67]) = (kind, 1);
    for link in [LEFT, RIGHT, CHILD] {
        put_u32(&mut bytes, link, NOSTREAM);
    }
    put_u32(&mut bytes, 116, if kind == STREAM { END } else { 0 });
    bytes
}
