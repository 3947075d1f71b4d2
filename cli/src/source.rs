//! Files that are read: what kind they must be, how long they may be, and the image in memory.

use std::fs::{self, File, Metadata, OpenOptions};
use std::io::{self, Read};
use std::path::Path;

use gyomrelas::{ReadOnlyVolume, Refusal, work_need};

use crate::fault::Fault;

/// The longest file that the library takes.
pub const GREATEST: u64 = 67_108_864;

/// A file in memory, with a work buffer for the library's calls.
pub struct Image {
    pub bytes: Vec<u8>,
    pub work: Vec<u32>,
}

impl Image {
    pub fn new(bytes: Vec<u8>) -> Image {
        let work = vec![0; work_need(bytes.len())];
        Image { bytes, work }
    }

    /// Reads a file.
    pub fn read(file: &Path) -> Result<Image, Fault> {
        regular(file)?;
        let opened = File::open(file).map_err(|error| Fault::system(file, error))?;
        read_all(file, opened).map(Image::new)
    }

    /// Reads a file that is to be written: who may not write to it may not replace it either.
    pub fn read_to_edit(file: &Path) -> Result<(Image, Metadata), Fault> {
        regular(file)?;
        let opened = OpenOptions::new().read(true).write(true).open(file);
        let opened = opened.map_err(|error| Fault::system(file, error))?;
        let metadata = opened.metadata().map_err(|error| Fault::system(file, error))?;
        Ok((Image::new(read_all(file, opened)?), metadata))
    }

    /// Validates the image, and opens it.
    pub fn open(&mut self, file: &Path) -> Result<ReadOnlyVolume<'_>, Fault> {
        ReadOnlyVolume::open(&self.bytes, &mut self.work).map_err(|refusal| Fault::of_file(file, refusal))
    }
}

/// Asks that a file is a regular one. To open a pipe would wait for a writer, so this comes first.
pub fn regular(file: &Path) -> Result<(), Fault> {
    let metadata = fs::metadata(file).map_err(|error| Fault::system(file, error))?;
    sort(file, &metadata)
}

fn sort(file: &Path, metadata: &Metadata) -> Result<(), Fault> {
    if metadata.is_dir() {
        Err(Fault::System(format!("{}: a folder, and a file is needed", file.display())))
    } else if !metadata.is_file() {
        Err(Fault::System(format!("{}: no regular file (a pipe, a socket or a device)", file.display())))
    } else {
        Ok(())
    }
}

/// All bytes of a file. One that is longer than the library takes is refused unread, with the library's number.
fn read_all(file: &Path, opened: File) -> Result<Vec<u8>, Fault> {
    let metadata = opened.metadata().map_err(|error| Fault::system(file, error))?;
    sort(file, &metadata)?;
    if metadata.len() > GREATEST {
        return Err(Fault::of_file(file, Refusal::BadLength));
    }
    bounded(opened).map_err(|error| Fault::system(file, error))
}

/// The bytes of standard input, for a stream. None can have more than the longest file: who types more gets the
/// library's refusal for room, and the rest is not read.
pub fn standard_input() -> Result<Vec<u8>, Fault> {
    bounded(io::stdin().lock()).map_err(|error| Fault::System(format!("standard input: {error}")))
}

fn bounded(from: impl Read) -> io::Result<Vec<u8>> {
    let mut bytes = Vec::new();
    from.take(GREATEST + 1).read_to_end(&mut bytes)?;
    Ok(bytes)
}
