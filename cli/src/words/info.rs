//! `cfb info`: the parts of a file, and what is free.

use crate::args::Args;
use crate::fault::Fault;
use crate::layout::Layout;
use crate::output::Output;
use crate::source::Image;
use crate::word::Word;

pub const WORD: Word = Word {
    name: "info",
    operands: "FILE",
    count: (1, 1),
    options: &[],
    about: "show version, sectors, what is free, and how many objects there are",
    help: "\
Shows the version and the parts of a sound file. Free sectors are room for streams of 4096 bytes and more, free mini
sectors (of 64 bytes) for smaller ones, blank entries for new streams and storages.",
    run,
};

fn run(args: &Args) -> Result<(), Fault> {
    let file = args.file(0);
    let mut image = Image::read(file)?;
    image.open(file)?.close();
    let layout = Layout::read(&image.bytes);
    let layout = layout.ok_or_else(|| Fault::System(format!("{}: its tables cannot be followed", file.display())))?;
    let mut output = Output::new();
    for (name, value) in facts(&layout, image.bytes.len()) {
        output.line(&format!("{name:<19}{value}"))?;
    }
    output.end()
}

/// The lines, in the order that they are shown.
fn facts(layout: &Layout<'_>, bytes: usize) -> Vec<(&'static str, usize)> {
    let (storages, streams) = (layout.entries_of(1), layout.entries_of(2));
    vec![
        ("version", usize::from(layout.version)),
        ("bytes", bytes),
        ("sector bytes", layout.sector_bytes),
        ("sectors", layout.sectors()),
        ("free sectors", layout.free_sectors()),
        ("FAT sectors", layout.fat_sectors()),
        ("DIFAT sectors", layout.difat_sectors),
        ("directory sectors", layout.directory_sectors()),
        ("mini FAT sectors", layout.mini_fat_sectors()),
        ("mini sectors", layout.mini_sectors().unwrap_or(0)),
        ("free mini sectors", layout.free_mini_sectors()),
        ("objects", storages + streams),
        ("storages", storages),
        ("streams", streams),
        ("blank entries", layout.entries_of(0)),
    ]
}
