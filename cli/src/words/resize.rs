//! `cfb resize`: another length for a stream.

use crate::args::Args;
use crate::edit::edit_volume;
use crate::fault::Fault;
use crate::word::Word;

pub const WORD: Word = Word {
    name: "resize",
    operands: "FILE PATH LENGTH",
    count: (3, 3),
    options: &[],
    about: "give a stream another length",
    help: "\
The stream at PATH gets LENGTH bytes (also 4K, 1M): a shorter one keeps its first bytes, a longer one has zero bytes
behind the old ones. Streams of 4096 bytes and more lie in sectors, smaller ones in mini sectors, and a stream that
crosses this line needs free ones of the other kind.",
    run,
};

fn run(args: &Args) -> Result<(), Fault> {
    let (file, path, length) = (args.file(0), args.path(1)?, args.number_at(2, "LENGTH")?);
    edit_volume(file, |volume| volume.set_len(&path, length).map_err(|refusal| Fault::of_path(file, &path, refusal)))
}
