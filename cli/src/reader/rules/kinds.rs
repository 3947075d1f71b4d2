//! The fields of an entry, by its type.

use crate::reader::entry::*;
use crate::reader::number::*;
use std::ops::Range;

/// A byte of the entry, and what is wrong there.
pub type Fault = (usize, String);

/// The fields that are asked to be zero of some type of entry.
const FIELDS: [(Range<usize>, &str); 10] = [
    (0..64, "name"),
    (64..66, "name length"),
    (66..67, "type"),
    (67..68, "colour"),
    (CLASS..STATE, "class identifier"),
    (STATE..CREATED, "state bits"),
    (CREATED..MODIFIED, "creation time"),
    (MODIFIED..START, "modification time"),
    (START..SIZE, "start"),
    (SIZE..ENTRY, "size"),
];

/// A blank entry is zero but for its links, which name nothing.
pub fn blank(entry: &Entry) -> Option<Fault> {
    let names_nothing = || [LEFT, RIGHT, CHILD].into_iter().find_map(|field| unlinked(entry, field, "a blank entry"));
    zero(entry, 0..LEFT, "a blank entry").or_else(names_nothing).or_else(|| zero(entry, CLASS..ENTRY, "a blank entry"))
}

/// The root has no siblings, and no creation time.
pub fn root(entry: &Entry) -> Option<Fault> {
    let siblings = || [LEFT, RIGHT].into_iter().find_map(|field| unlinked(entry, field, "the root"));
    colour(entry).or_else(siblings).or_else(|| zero(entry, CREATED..MODIFIED, "the root"))
}

/// What storages and streams have in common.
pub fn object(entry: &Entry) -> Option<Fault> {
    colour(entry).or_else(|| name(entry))
}

pub fn storage(entry: &Entry) -> Option<Fault> {
    zero(entry, START..ENTRY, "a storage")
}

pub fn stream(entry: &Entry) -> Option<Fault> {
    unlinked(entry, CHILD, "a stream")
        .or_else(|| zero(entry, CLASS..STATE, "a stream"))
        .or_else(|| zero(entry, CREATED..START, "a stream"))
}

fn colour(entry: &Entry) -> Option<Fault> {
    let colour = u8_at(entry.bytes, COLOUR);
    (colour > 1).then(|| (COLOUR, format!("the colour is {colour}; it should be 0 (red) or 1 (black)")))
}

fn name(entry: &Entry) -> Option<Fault> {
    let length = entry.name_bytes();
    if !length.is_multiple_of(2) || !(4..=64).contains(&length) {
        let text = format!("the name length is {length} bytes; it should be even, from 4 to 64");
        return Some((NAME_BYTES, text));
    }
    let last = length as usize / 2 - 1;
    let refused = |index: &usize| [0, b'/', b'\\', b':', b'!'].map(u16::from).contains(&entry.unit(*index));
    if let Some(index) = (0..last).find(refused) {
        let text = match entry.unit(index) {
            0 => format!(
                "unit {index} of the name is zero, but the name length says {last} units before the zero at its end"
            ),
            unit => format!("unit {index} of the name is '{}'; no name may have it", unit as u8 as char),
        };
        return Some((2 * index, text));
    }
    let there = entry.unit(last);
    (there != 0).then(|| (2 * last, format!("the name's last unit is {there:04X}; it should be zero")))
}

/// A link that should name nothing.
fn unlinked(entry: &Entry, field: usize, of: &str) -> Option<Fault> {
    let link = entry.link(field);
    let title = link_title(field);
    let text = || format!("the {title} of {of} is {}; it should be FFFFFFFF (none)", link_text(link));
    (link != NOSTREAM).then(|| (field, text()))
}

pub fn link_title(field: usize) -> &'static str {
    match field {
        LEFT => "left sibling",
        RIGHT => "right sibling",
        _ => "child",
    }
}

/// Bytes that should all be zero.
fn zero(entry: &Entry, range: Range<usize>, of: &str) -> Option<Fault> {
    let at = range.into_iter().find(|&at| u8_at(entry.bytes, at) != 0)?;
    let title = FIELDS.iter().find(|(field, _)| field.contains(&at)).map_or("", |(_, title)| title);
    Some((at, format!("the {title} of {of} should be zero; byte {at} of the entry is {:02X}", u8_at(entry.bytes, at))))
}
