//! Listing: a line for each object, siblings in name order, each storage followed by all that is below it.

use super::siblings;
use crate::volume::Volume;
use crate::volume::entry::STREAM;

/// An object, and the place in the listing of the storage that it lies in; None in the root.
pub struct Listed {
    pub entry: usize,
    pub holder: Option<usize>,
}

/// All objects in the order of their lines, with a stack in place of recursion.
pub fn objects(volume: &Volume) -> Vec<Listed> {
    let inside = |entry: usize, holder: Option<usize>| {
        siblings::within(&volume.directory, entry).into_iter().rev().map(move |entry| Listed { entry, holder })
    };
    let mut listed = Vec::new();
    let mut waiting: Vec<Listed> = inside(0, None).collect();
    while let Some(object) = waiting.pop() {
        let entry = object.entry;
        listed.push(object);
        waiting.extend(inside(entry, Some(listed.len() - 1)));
    }
    listed
}

/// The names from below the root down to this object, as they are spelled.
pub fn names(volume: &Volume, listed: &[Listed], object: usize) -> Vec<Vec<u16>> {
    let upward = std::iter::successors(Some(object), |&at| listed[at].holder);
    let mut names: Vec<Vec<u16>> = upward.map(|at| volume.directory.entry(listed[at].entry).name().collect()).collect();
    names.reverse();
    names
}

/// Writes the listing only if all of it fits.
pub fn list(volume: &Volume, out: &mut [u8]) -> Result<u64, u32> {
    let listed = objects(volume);
    let need = length(volume, &listed);
    if need > out.len() as u64 {
        return Err(27);
    }
    let mut text = title(&listed);
    for (i, object) in listed.iter().enumerate() {
        let names: Vec<String> = names(volume, &listed, i).iter().map(|name| printed(name)).collect();
        text += &format!("{}{}\n", front(volume, object), names.join("/"));
    }
    assert_eq!(text.len() as u64, need);
    out[..text.len()].copy_from_slice(text.as_bytes());
    Ok(need)
}

/// The listing's length, added up line by line: deep storages make it far longer than the image.
pub fn length(volume: &Volume, listed: &[Listed]) -> u64 {
    let mut total = title(listed).len() as u64;
    let mut paths: Vec<u64> = Vec::with_capacity(listed.len());
    for object in listed {
        let above = object.holder.map_or(0, |holder| paths[holder] + 1);
        let name: Vec<u16> = volume.directory.entry(object.entry).name().collect();
        paths.push(above + printed(&name).len() as u64);
        total += front(volume, object).len() as u64 + paths[paths.len() - 1] + 1;
    }
    total
}

fn title(listed: &[Listed]) -> String {
    format!("objects {}\n", listed.len())
}

/// A line up to the path.
fn front(volume: &Volume, object: &Listed) -> String {
    let entry = volume.directory.entry(object.entry);
    format!("{} {} ", if entry.kind() == STREAM { 'F' } else { 'D' }, entry.size())
}

fn printed(name: &[u16]) -> String {
    name.iter().map(|&unit| printed_unit(unit)).collect()
}

/// Units 20 to 7E as they are, others as `\` and four capital hex digits.
pub fn printed_unit(unit: u16) -> String {
    match unit {
        0x20..=0x7E => char::from(unit as u8).to_string(),
        _ => format!("\\{unit:04X}"),
    }
}
