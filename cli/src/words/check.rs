//! `cfb check`: whether files keep every rule.

use std::path::Path;

use gyomrelas::validate;

use crate::answers;
use crate::args::Args;
use crate::fault::Fault;
use crate::output::Output;
use crate::progress::Progress;
use crate::source::Image;
use crate::word::{Opt, Word};
use crate::words::explain;

pub const WORD: Word = Word {
    name: "check",
    operands: "FILE..",
    count: (1, usize::MAX),
    options: &[Opt {
        name: "-v",
        value: None,
        about: "say where a refused file breaks a rule, and what should stand there",
    }],
    about: "tell whether files are sound",
    help: "\
Validates each file as a whole, and prints `FILE: ok`, or the number of the first group of rules that it breaks, with a
sentence. A refused file may be one that other programs read: the rules are stricter than most readers.
A file that cannot be read is named on standard error; then the status is 3, whatever the others are.",
    run,
};

fn run(args: &Args) -> Result<(), Fault> {
    let (mut worst, mut output, mut progress) = (0, Output::new(), Progress::new());
    let count = args.operands().count();
    for (number, file) in args.operands().enumerate() {
        let file = Path::new(file);
        progress.show(|| format!("{} of {count}: {}", number + 1, file.display()));
        let read = Image::read(file);
        progress.wipe();
        worst = worst.max(check(file, read, args.has("-v"), &mut output)?);
        output.flush()?;
    }
    if worst == 0 { Ok(()) } else { Err(Fault::Told(worst)) }
}

/// Says whether a file is sound, and gives its status. What went wrong with the output alone is a fault.
fn check(file: &Path, read: Result<Image, Fault>, verbose: bool, output: &mut Output) -> Result<u8, Fault> {
    match read {
        Ok(image) => verdict(file, image, verbose, output),
        Err(Fault::Refused(_, number)) => output.line(&sentence(file, number)).map(|()| 1),
        Err(fault) => {
            fault.tell();
            Ok(fault.status())
        }
    }
}

/// The library's verdict on a file.
fn verdict(file: &Path, image: Image, verbose: bool, output: &mut Output) -> Result<u8, Fault> {
    let Image { bytes, mut work } = image;
    match validate(&bytes, &mut work) {
        Ok(()) => output.line(&format!("{}: ok", file.display())).map(|()| 0),
        Err(refusal) => {
            output.line(&sentence(file, refusal.number()))?;
            let lines = if verbose { explain::lines(&bytes, refusal.number()) } else { Vec::new() };
            lines.iter().try_for_each(|line| output.line(&format!("  {line}")))?;
            Ok(1)
        }
    }
}

/// What is said of a refused file.
fn sentence(file: &Path, number: u32) -> String {
    let (meaning, _) = answers::of(number);
    format!("{}: refused {number}: {meaning}", file.display())
}
