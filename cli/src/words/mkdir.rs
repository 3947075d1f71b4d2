//! `cfb mkdir`: a new storage.

use crate::args::Args;
use crate::edit::edit_volume;
use crate::fault::Fault;
use crate::word::Word;

pub const WORD: Word = Word {
    name: "mkdir",
    operands: "FILE PATH",
    count: (2, 2),
    options: &[],
    about: "make an empty storage",
    help: "Makes a storage with nothing in it at PATH. The storage around it has to be there, and the directory needs a
blank entry.",
    run,
};

fn run(args: &Args) -> Result<(), Fault> {
    let (file, path) = (args.file(0), args.path(1)?);
    edit_volume(file, |volume| volume.create_storage(&path).map_err(|refusal| Fault::of_path(file, &path, refusal)))
}
