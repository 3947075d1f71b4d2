//! `cfb append`: standard input goes behind a stream.

use gyomrelas::{Kind, Refusal, Volume};

use crate::args::Args;
use crate::edit::edit_volume;
use crate::fault::Fault;
use crate::source::{self, standard_input};
use crate::word::Word;

pub const WORD: Word = Word {
    name: "append",
    operands: "FILE PATH",
    count: (2, 2),
    options: &[],
    about: "add standard input at the end of a stream",
    help: "The bytes of standard input are added at the end of the stream at PATH, which has to be there.",
    run,
};

fn run(args: &Args) -> Result<(), Fault> {
    let (file, path) = (args.file(0), args.path(1)?);
    source::regular(file)?;
    let bytes = standard_input()?;
    edit_volume(file, |volume| append(volume, &path, &bytes).map_err(|refusal| Fault::of_path(file, &path, refusal)))
}

fn append(volume: &mut Volume<'_>, path: &[u16], bytes: &[u8]) -> Result<(), Refusal> {
    let entry = volume.find(path)?;
    if entry.kind != Kind::Stream {
        return Err(Refusal::NotAStream);
    }
    volume.set_len(path, entry.size + bytes.len() as u64)?;
    volume.overwrite(path, entry.size, bytes)
}
