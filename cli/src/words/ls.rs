//! `cfb ls`: what is in a file.

use gyomrelas::{Kind, Object};

use crate::args::Args;
use crate::fault::Fault;
use crate::output::Output;
use crate::source::Image;
use crate::typed::printed;
use crate::word::{Opt, Word};

pub const WORD: Word = Word {
    name: "ls",
    operands: "FILE",
    count: (1, 1),
    options: &[Opt { name: "-l", value: None, about: "with kind (D storage, F stream) and size in bytes" }],
    about: "list the streams and storages of a file",
    help: "\
Prints the path of each storage and each stream, a storage before all that is below it, shorter names first.
A character that does not print is `\\` and four digits of base 16; every path can be given back to `cfb` so.",
    run,
};

fn run(args: &Args) -> Result<(), Fault> {
    let file = args.file(0);
    let mut image = Image::read(file)?;
    let mut volume = image.open(file)?;
    let objects: Vec<Object> = volume.objects().map_err(|refusal| Fault::of_file(file, refusal))?.collect();
    let widest = objects.iter().map(|object| object.size.to_string().len()).max().unwrap_or(1);
    let mut output = Output::new();
    for object in objects {
        let path = printed(&object.path);
        if args.has("-l") {
            output.line(&format!("{} {:>widest$} {path}", letter(object.kind), object.size))?;
        } else {
            output.line(&path)?;
        }
    }
    output.end()
}

fn letter(kind: Kind) -> char {
    match kind {
        Kind::Stream => 'F',
        Kind::Storage | Kind::Root => 'D',
    }
}
