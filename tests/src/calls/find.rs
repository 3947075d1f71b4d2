//! Finding: what stands at a path.

use super::{path, siblings};
use crate::volume::Volume;
use crate::volume::entry::{Entry, STREAM, fold};

pub struct Found {
    pub entry: usize,
    pub kind: u8,
    pub size: u64,
}

pub fn find(volume: &Volume, path: &[u16]) -> Result<Found, u32> {
    let names = names(path)?;
    let at = follow(volume, &names)?;
    let entry = volume.directory.entry(at);
    Ok(Found { entry: at, kind: entry.kind(), size: entry.size() })
}

/// The same where a stream is needed.
pub fn find_stream(volume: &Volume, path: &[u16]) -> Result<Found, u32> {
    let found = find(volume, path)?;
    if found.kind == STREAM { Ok(found) } else { Err(23) }
}

/// The names of a path, which is judged as a whole before any of them is looked up.
pub fn names(path: &[u16]) -> Result<Vec<&[u16]>, u32> {
    if path::well_formed(path) { Ok(path::names(path).collect()) } else { Err(20) }
}

/// The entry that these names lead to. The first one that fails decides between 21 and 22.
pub fn follow(volume: &Volume, names: &[&[u16]]) -> Result<usize, u32> {
    let mut at = 0;
    for name in names {
        at = child(volume, holder(volume, at)?, name).ok_or(21u32)?;
    }
    Ok(at)
}

/// The entry, if other objects can be in it.
pub fn holder(volume: &Volume, entry: usize) -> Result<usize, u32> {
    if volume.directory.entry(entry).kind() == STREAM { Err(22) } else { Ok(entry) }
}

/// The object of this name in a storage or the root.
pub fn child(volume: &Volume, holder: usize, name: &[u16]) -> Option<usize> {
    let inside = siblings::within(&volume.directory, holder);
    inside.into_iter().find(|&number| is_named(&volume.directory.entry(number), name))
}

fn is_named(entry: &Entry, name: &[u16]) -> bool {
    entry.name().map(fold).eq(name.iter().copied().map(fold))
}
