//! `cfb cat`: the bytes of a stream.

use std::path::Path;

use gyomrelas::{Kind, ReadOnlyVolume, Refusal};

use crate::args::Args;
use crate::fault::Fault;
use crate::output::Output;
use crate::source::Image;
use crate::word::Word;

pub const WORD: Word = Word {
    name: "cat",
    operands: "FILE PATH",
    count: (2, 2),
    options: &[],
    about: "write the bytes of a stream to standard output",
    help: "Writes the bytes of the stream at PATH to standard output, as they are.",
    run,
};

fn run(args: &Args) -> Result<(), Fault> {
    let (file, path) = (args.file(0), args.path(1)?);
    let mut image = Image::read(file)?;
    let bytes = whole(&image.open(file)?, file, &path)?;
    let mut output = Output::new();
    output.bytes(&bytes)?;
    output.end()
}

/// All bytes of a stream.
pub fn whole(volume: &ReadOnlyVolume<'_>, file: &Path, path: &[u16]) -> Result<Vec<u8>, Fault> {
    let read = || {
        let entry = volume.find(path)?;
        if entry.kind != Kind::Stream {
            return Err(Refusal::NotAStream);
        }
        let mut bytes = vec![0; usize::try_from(entry.size).map_err(|_| Refusal::Streams)?];
        volume.read(path, 0, &mut bytes)?;
        Ok(bytes)
    };
    read().map_err(|refusal| Fault::of_path(file, path, refusal))
}
