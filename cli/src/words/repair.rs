//! `cfb repair`: settles what a power cut has bent.

use std::path::Path;

use gyomrelas::repair;

use crate::args::Args;
use crate::edit::edit;
use crate::fault::Fault;
use crate::numbers::count;
use crate::output::Output;
use crate::repaired;
use crate::source::Image;
use crate::word::{Opt, Word};

/// No more changes are shown one by one.
const SHOWN: usize = 20;

pub const WORD: Word = Word {
    name: "repair",
    operands: "FILE",
    count: (1, 1),
    options: &[Opt { name: "-n", value: None, about: "only tell what would change; write nothing" }],
    about: "repair a file that a power cut has bent",
    help: "\
Cells of FAT and mini FAT that stand for no sector, or for one that nobody owns, become free, and the colours of all
objects become black: also in a sound file, whose colours may be red. No name, link, size, chain or byte of a stream is
touched. Where the file would still break a rule, it is refused with the number of that rule, and stays as it was: the
number may be another than that of `cfb check`, which names the first group of rules that is broken now.",
    run,
};

fn run(args: &Args) -> Result<(), Fault> {
    let file = args.file(0);
    if args.has("-n") {
        let changes = repaired(file, &mut Image::read(file)?)?;
        return tell(file, &changes, "to make; nothing was written");
    }
    let changes = edit(file, |image| repaired(file, image))?;
    tell(file, &changes, "made")
}

/// Repairs an image, and gives a line for each change.
fn repaired(file: &Path, image: &mut Image) -> Result<Vec<String>, Fault> {
    let before = image.bytes.clone();
    let mut spare = vec![0; image.bytes.len()];
    let changed = repair(&mut image.bytes, &mut image.work, &mut spare);
    let changed = changed.map_err(|refusal| Fault::of_repair(file, refusal))?;
    let changes = repaired::changes(&before, &image.bytes).filter(|lines| lines.len() as u64 == changed);
    // the lines are there to read; what counts is the library's number
    Ok(changes.unwrap_or_else(|| vec![format!("{} of cells and colours", count(changed, "change"))]))
}

fn tell(file: &Path, changes: &[String], done: &str) -> Result<(), Fault> {
    let mut output = Output::new();
    for change in changes.iter().take(SHOWN) {
        output.line(change)?;
    }
    if changes.len() > SHOWN {
        output.line(&format!("and {} more", changes.len() - SHOWN))?;
    }
    match changes.len() {
        0 => output.line(&format!("{}: nothing to repair", file.display()))?,
        number => output.line(&format!("{}: {} {done}", file.display(), count(number as u64, "change")))?,
    }
    output.end()
}
