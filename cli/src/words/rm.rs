//! `cfb rm`: removes a stream or a storage.

use std::path::Path;

use gyomrelas::{Object, Refusal, Volume};

use crate::args::Args;
use crate::edit::edit_volume;
use crate::fault::Fault;
use crate::progress::Progress;
use crate::word::{Opt, Word};

pub const WORD: Word = Word {
    name: "rm",
    operands: "FILE PATH",
    count: (2, 2),
    options: &[Opt { name: "-r", value: None, about: "remove all that is below a storage first" }],
    about: "remove a stream or a storage",
    help: "\
Removes the stream or the storage at PATH. A storage that is not empty is refused, but with -r all that is below it goes
first. Either everything goes, or nothing. The bytes of a removed stream stay in the file until they are written over.",
    run,
};

fn run(args: &Args) -> Result<(), Fault> {
    let (file, path) = (args.file(0), args.path(1)?);
    edit_volume(file, |volume| {
        if args.has("-r") {
            remove_below(volume, file, &path)?;
        }
        volume.remove(&path).map_err(|refusal| Fault::of_path(file, &path, refusal))
    })
}

/// Removes all that is below a path, the deepest first.
fn remove_below(volume: &mut Volume<'_>, file: &Path, path: &[u16]) -> Result<(), Fault> {
    let below = below(volume, path).map_err(|refusal| Fault::of_path(file, path, refusal))?;
    let mut progress = Progress::new();
    for (number, object) in below.iter().rev().enumerate() {
        progress.show(|| format!("{number} of {} removed", below.len()));
        volume.remove(&object.path).map_err(|refusal| Fault::of_path(file, &object.path, refusal))?;
    }
    Ok(())
}

/// All objects below a path, in the order of the listing. The path may be typed in other letters than it is listed in,
/// so it is known by its entry.
fn below(volume: &mut Volume<'_>, path: &[u16]) -> Result<Vec<Object>, Refusal> {
    let wanted = volume.find(path)?.number;
    let objects: Vec<Object> = volume.objects()?.collect();
    if path.is_empty() {
        return Ok(objects);
    }
    let names = |path: &[u16]| path.split(is_slash).count();
    let alike = objects.iter().filter(|object| names(&object.path) == names(path));
    let mut listed = Vec::new();
    for object in alike {
        if volume.find(&object.path)?.number == wanted {
            listed = object.path.clone();
        }
    }
    listed.push(u16::from(b'/'));
    Ok(objects.into_iter().filter(|object| object.path.starts_with(&listed)).collect())
}

fn is_slash(unit: &u16) -> bool {
    *unit == u16::from(b'/')
}
