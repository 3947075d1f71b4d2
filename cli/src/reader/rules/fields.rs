//! Group 14: the fields of the entries.

use super::kinds::{Fault, blank, object, root, storage, stream};
use crate::reader::entry::*;
use crate::reader::finding::Finding;
use crate::reader::volume::Volume;

pub fn check(volume: &Volume) -> Result<(), Finding> {
    let image = &volume.image;
    let finding = |entry: Entry| fault(&entry).map(|(at, text)| Finding::new(14, text).entry(image, &entry, at));
    volume.entries().find_map(finding).map_or(Ok(()), Err)
}

/// The first field of an entry that is wrong.
fn fault(entry: &Entry) -> Option<Fault> {
    match (entry.number, entry.kind()) {
        (0, ROOT) => root(entry),
        (0, kind) => Some((TYPE, format!("the type of entry 0 is {kind}; it should be 5, the root"))),
        (_, BLANK) => blank(entry),
        (_, STORAGE) => object(entry).or_else(|| storage(entry)),
        (_, STREAM) => object(entry).or_else(|| stream(entry)),
        (_, ROOT) => Some((TYPE, "the type is 5, the root; only entry 0 may have it".into())),
        (_, kind) => Some((TYPE, format!("the type is {kind}; it should be 0 (blank), 1 (storage) or 2 (stream)"))),
    }
}
