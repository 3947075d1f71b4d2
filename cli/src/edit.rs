//! An edit of a file: read, changed in memory, and written whole.

use std::fs;
use std::path::Path;

use gyomrelas::Volume;

use crate::fault::Fault;
use crate::pending::{PRIVATE, Pending};
use crate::source::{self, Image};

/// Changes an image in memory, and then the file. A refusal leaves the file as it was, and so does a change of nothing.
pub fn edit<T>(file: &Path, change: impl FnOnce(&mut Image) -> Result<T, Fault>) -> Result<T, Fault> {
    source::regular(file)?;
    let target = fs::canonicalize(file).map_err(|error| Fault::system(file, error))?;
    let pending = Pending::begin(&target, PRIVATE)?;
    // only now nobody else edits it
    let (mut image, metadata) = Image::read_to_edit(&target)?;
    let before = image.bytes.clone();
    let value = change(&mut image)?;
    if image.bytes != before {
        pending.replace(&image.bytes, &metadata)?;
    }
    Ok(value)
}

/// An edit by calls on a volume that is opened once.
pub fn edit_volume(file: &Path, change: impl FnOnce(&mut Volume<'_>) -> Result<(), Fault>) -> Result<(), Fault> {
    edit(file, |image| {
        let volume = Volume::open(&mut image.bytes, &mut image.work);
        change(&mut volume.map_err(|refusal| Fault::of_file(file, refusal))?)
    })
}
