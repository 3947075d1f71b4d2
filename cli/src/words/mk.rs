//! `cfb mk`: a new stream.

use crate::args::Args;
use crate::edit::edit_volume;
use crate::fault::Fault;
use crate::word::Word;

pub const WORD: Word = Word {
    name: "mk",
    operands: "FILE PATH",
    count: (2, 2),
    options: &[],
    about: "make an empty stream",
    help: "Makes a stream of no bytes at PATH. Its storage has to be there, and the directory needs a blank entry.",
    run,
};

fn run(args: &Args) -> Result<(), Fault> {
    let (file, path) = (args.file(0), args.path(1)?);
    edit_volume(file, |volume| volume.create_stream(&path).map_err(|refusal| Fault::of_path(file, &path, refusal)))
}
