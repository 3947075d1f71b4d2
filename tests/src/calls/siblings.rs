//! The objects of a storage in the order of their names, and the fields that link them.

use crate::number::NOSTREAM;
use crate::volume::directory::Directory;

/// The places of an entry's links.
pub const LEFT: usize = 68;
pub const RIGHT: usize = 72;
pub const CHILD: usize = 76;

/// The entries in this one, by a walk over the tree that its child field names.
pub fn within(directory: &Directory, holder: usize) -> Vec<usize> {
    let mut found = Vec::new();
    let mut above = Vec::new();
    let mut at = directory.entry(holder).child();
    loop {
        while at != NOSTREAM {
            above.push(at as usize);
            at = directory.entry(at as usize).left();
        }
        let Some(next) = above.pop() else { return found };
        found.push(next);
        at = directory.entry(next).right();
    }
}
