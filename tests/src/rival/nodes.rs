//! What the trees need of an entry, in two numbers. A link is 0 for none, or the slot of an entry: its number and one more.
//!   first: left link, units of the name, red, reached, upper part of the child link
//!   second: right link, lower part of the child link

use crate::number::*;

pub type Node = [u32; 2];

/// 19 bits are enough for the entries of any image.
pub const LINK: u32 = (1 << 19) - 1;
pub const UNITS: u32 = 19;
pub const RED: u32 = 1 << 24;
pub const REACHED: u32 = 1 << 25;
const CHILD_UPPER: u32 = 26;
const CHILD_LOWER: u32 = 13;

/// The slot of the root, which nothing may name.
pub const ROOT_SLOT: u32 = 1;
/// Of the root and of a blank entry: as though it had been reached already.
pub const NOT_NAMED: Node = [REACHED, 0];

/// The slot that a field names in a directory of so many entries; the root's for what names no entry.
pub fn slot(field: u32, entries: u32) -> u32 {
    let slot = field.wrapping_add(1);
    if slot > entries { ROOT_SLOT } else { slot }
}

/// The node of an object whose fields are right.
pub fn pack(entry: &[u8; ENTRY], entries: u32) -> Node {
    let link = |place| slot(u32_at(entry, place), entries);
    let (left, right, child) = (link(68), link(72), link(76));
    let units = u16_at(entry, 64) as u32 / 2 - 1;
    let red = if entry[67] == 0 { RED } else { 0 };
    [left | units << UNITS | red | child >> CHILD_LOWER << CHILD_UPPER, right | child << UNITS]
}

pub fn child([first, second]: Node) -> u32 {
    second >> UNITS | first >> CHILD_UPPER << CHILD_LOWER
}
