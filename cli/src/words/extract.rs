//! `cfb extract`: storages as folders, streams as files.

use std::fs::{self, File, OpenOptions};
use std::io::{ErrorKind, Write};
use std::path::{Path, PathBuf};

use gyomrelas::{Kind, Object, ReadOnlyVolume};

use crate::args::Args;
use crate::fault::Fault;
use crate::limits;
use crate::numbers::count;
use crate::output;
use crate::progress::Progress;
use crate::source::Image;
use crate::typed::{escaped, printed};
use crate::word::{Opt, Word};
use crate::words::cat::whole;

pub const WORD: Word = Word {
    name: "extract",
    operands: "FILE DIR",
    count: (2, 2),
    options: &[Opt { name: "--force", value: None, about: "write into a folder that is there, over files in it" }],
    about: "write all streams to a folder",
    help: "\
Makes the folder DIR, and in it a folder for each storage and a file for each stream. A name that a file system cannot
hold (with control characters or half a surrogate pair) is written as `cfb ls` prints it, and a dot of `.` and `..` as
`\\002E`. Nothing is written outside DIR: a symbolic link in it is never followed, but replaced or refused. Where
something fails, a DIR that was made here goes again.",
    run,
};

fn run(args: &Args) -> Result<(), Fault> {
    let (file, folder, force) = (args.file(0), args.file(1), args.has("--force"));
    let mut image = Image::read(file)?;
    let mut volume = image.open(file)?;
    let objects: Vec<Object> = volume.objects().map_err(|refusal| Fault::of_file(file, refusal))?.collect();
    let made = make_target(folder, force)?;
    if let Err(fault) = extract(&volume, file, folder, &objects, force) {
        if made {
            let _ = fs::remove_dir_all(folder);
        }
        return Err(fault);
    }
    let streams = objects.iter().filter(|object| object.kind == Kind::Stream).count() as u64;
    let storages = objects.len() as u64 - streams;
    output::text(&format!("{}: {}, {}\n", folder.display(), count(streams, "file"), count(storages, "folder")))
}

/// Makes the target, and says whether it was not there before. A target may be a link to a folder: it was named by the
/// user, and not by the file.
fn make_target(folder: &Path, force: bool) -> Result<bool, Fault> {
    match fs::create_dir(folder) {
        Ok(()) => Ok(true),
        Err(error) if error.kind() == ErrorKind::AlreadyExists && !force => {
            Err(Fault::System(format!("{}: it is there already; --force writes into it", folder.display())))
        }
        Err(error) if error.kind() == ErrorKind::AlreadyExists && folder.is_dir() => Ok(false),
        Err(error) => Err(Fault::system(folder, error)),
    }
}

/// Writes all objects. A storage comes before what is below it.
fn extract(
    volume: &ReadOnlyVolume<'_>,
    file: &Path,
    folder: &Path,
    objects: &[Object],
    force: bool,
) -> Result<(), Fault> {
    let mut progress = Progress::new();
    for (number, object) in objects.iter().enumerate() {
        progress.show(|| format!("{number} of {}: {}", objects.len(), printed(&object.path)));
        let place = place(folder, &object.path);
        match object.kind {
            Kind::Stream => write_file(&place, &whole(volume, file, &object.path)?, force)?,
            Kind::Storage | Kind::Root => make_folder(&place)?,
        }
    }
    Ok(())
}

/// Where an object goes: a name of the file system for each name of its path.
fn place(folder: &Path, path: &[u16]) -> PathBuf {
    let mut place = folder.to_path_buf();
    place.extend(path.split(|unit| *unit == u16::from(b'/')).map(held));
    place
}

/// A name as the file system holds it. Whatever has a `\` was printed, so no two names become one.
fn held(name: &[u16]) -> String {
    match String::from_utf16(name) {
        Ok(text) if text == "." || text == ".." => name.iter().map(|unit| escaped(*unit)).collect(),
        Ok(text) if !text.contains(|letter: char| letter.is_control() || letter == '/' || letter == '\\') => text,
        _ => printed(name),
    }
}

/// Makes a folder, or takes one that is there; a link to one is not one.
fn make_folder(place: &Path) -> Result<(), Fault> {
    match fs::create_dir(place) {
        Err(error) if error.kind() == ErrorKind::AlreadyExists => match fs::symlink_metadata(place) {
            Ok(metadata) if metadata.is_dir() => Ok(()),
            _ => Err(Fault::System(format!("{}: it is there already, and no folder", place.display()))),
        },
        made => made.map_err(|error| Fault::system(place, error)),
    }
}

/// Writes a file that is not there; with force, after removing what is. What could not be written whole goes again.
fn write_file(place: &Path, bytes: &[u8], force: bool) -> Result<(), Fault> {
    let written = limits::allowed(bytes.len()).and_then(|()| create(place, force)).and_then(|mut file| {
        let written = file.write_all(bytes);
        if written.is_err() {
            let _ = fs::remove_file(place);
        }
        written
    });
    written.map_err(|error| Fault::trying("cannot write", place, error))
}

fn create(place: &Path, force: bool) -> std::io::Result<File> {
    let new = || OpenOptions::new().write(true).create_new(true).open(place);
    match new() {
        Err(error) if error.kind() == ErrorKind::AlreadyExists && force => {
            fs::remove_file(place)?;
            new()
        }
        opened => opened,
    }
}

#[cfg(test)]
mod tests {
    use super::held;

    fn of(text: &str) -> String {
        held(&text.encode_utf16().collect::<Vec<u16>>())
    }

    #[test]
    fn names_stay_where_the_file_system_holds_them() {
        assert_eq!(of("log"), "log");
        assert_eq!(of("\u{436} \u{1f600}"), "\u{436} \u{1f600}");
        assert_eq!(of("..."), "...");
    }

    #[test]
    fn other_names_are_printed() {
        assert_eq!(of("\u{5}Summary"), "\\0005Summary");
        assert_eq!(of("."), "\\002E");
        assert_eq!(of(".."), "\\002E\\002E");
        assert_eq!(held(&[0xd800, 0x41]), "\\D800A");
    }
}
