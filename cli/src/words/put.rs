//! `cfb put`: standard input becomes a stream.

use gyomrelas::{Refusal, Volume};

use crate::args::Args;
use crate::edit::edit_volume;
use crate::fault::Fault;
use crate::source::{self, standard_input};
use crate::word::Word;

pub const WORD: Word = Word {
    name: "put",
    operands: "FILE PATH",
    count: (2, 2),
    options: &[],
    about: "make standard input the bytes of a stream",
    help: "\
The stream at PATH gets exactly the bytes of standard input, in the place of those that it had:
  cfb put FILE PATH <BYTES
It is made if it is not there; the storages on the way to it have to be there (`cfb mkdir` makes them).",
    run,
};

fn run(args: &Args) -> Result<(), Fault> {
    let (file, path) = (args.file(0), args.path(1)?);
    source::regular(file)?;
    // read before the file is locked: it may take its time
    let bytes = standard_input()?;
    edit_volume(file, |volume| put(volume, &path, &bytes).map_err(|refusal| Fault::of_path(file, &path, refusal)))
}

fn put(volume: &mut Volume<'_>, path: &[u16], bytes: &[u8]) -> Result<(), Refusal> {
    if volume.find(path) == Err(Refusal::NotFound) {
        volume.create_stream(path)?;
    }
    volume.set_len(path, bytes.len() as u64)?;
    volume.overwrite(path, 0, bytes)
}
