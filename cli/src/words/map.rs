//! `cfb map`: the sectors of a file by owner, of accepted and of refused files.

mod grid;
mod legend;
mod marks;
mod shapes;
mod svg;
mod text;

use crate::args::Args;
use crate::fault::Fault;
use crate::output;
use crate::reader::findings::findings;
use crate::reader::header::SIGNATURE;
use crate::reader::number::counted;
use crate::reader::paths::Paths;
use crate::reader::survey::{Kind, Survey, Use};
use crate::reader::volume::Volume;
use crate::source::Image;
use crate::word::{Opt, Word};
use gyomrelas::{validate, work_need};
use marks::Mark;
use std::fs;
use std::io::IsTerminal;
use std::os::unix::fs::MetadataExt;
use std::path::Path;

pub const WORD: Word = Word {
    name: "map",
    operands: "FILE",
    count: (1, 1),
    options: &[Opt { name: "--svg", value: Some("OUT"), about: "draw a picture instead, and write it to OUT" }],
    about: "show which sector of a file belongs to whom",
    help: "\
Prints a letter for each sector, 64 in a row, with the number of the row's first sector at its left, and a legend: the
FAT, the DIFAT, the directory, the mini FAT, the mini stream and every stream of 4096 bytes and more; `.` is free, `?`
is not free and nobody's, `!` has two owners. Rows that are alike are folded. On a terminal it is in colour, unless
NO_COLOR is set. Refused files are shown too, as far as they can be read, with what is wrong.",
    run,
};

fn run(args: &Args) -> Result<(), Fault> {
    let file = args.file(0);
    let image = Image::read(file)?;
    let map = Map::of(&file.display().to_string(), &image.bytes);
    let map = map.map_err(|why| Fault::System(format!("{}: {why}", file.display())))?;
    match args.value("--svg") {
        None => output::text(&map.text(takes_colours())),
        Some(out) => save(file, Path::new(out), &map.svg()).map_err(Fault::System),
    }
}

/// A file taken apart for drawing.
pub struct Map<'a> {
    title: String,
    volume: Volume<'a>,
    paths: Paths,
    survey: Survey,
    /// The marks of the survey's parts.
    marks: Vec<Mark>,
    /// Why the file is refused, and what could not be followed.
    wrong: Vec<String>,
}

impl<'a> Map<'a> {
    /// The map of a file; the error says why it cannot be read at all.
    pub fn of(file: &str, bytes: &'a [u8]) -> Result<Map<'a>, String> {
        if bytes.len() < 512 || !bytes.starts_with(&SIGNATURE) {
            return Err("this is no compound file: it does not begin with the header of one".into());
        }
        let volume = Volume::of(bytes);
        let (survey, paths) = (Survey::of(&volume), Paths::of(&volume));
        let (title, wrong) = (title(file, &volume), wrong(&volume));
        let marks = marks::of_parts(&survey);
        Ok(Map { title, volume, paths, survey, marks, wrong })
    }

    /// The map for a terminal or a file: in colour, or in plain letters.
    pub fn text(&self, coloured: bool) -> String {
        text::draw(self, coloured)
    }

    /// The map as a picture.
    pub fn svg(&self) -> String {
        svg::draw(self)
    }

    /// The name of a part.
    fn part_title(&self, part: usize) -> String {
        let stream = |number| self.volume.entry(number).map(|entry| self.paths.path(&self.volume, &entry));
        match self.survey.parts.get(part).map(|part| part.kind) {
            Some(Kind::Fat) => "FAT".into(),
            Some(Kind::Difat) => "DIFAT".into(),
            Some(Kind::Directory) => "directory".into(),
            Some(Kind::MiniFat) => "mini FAT".into(),
            Some(Kind::MiniStream) => "mini stream".into(),
            Some(Kind::Stream(number)) => stream(number).unwrap_or_default(),
            None => String::new(),
        }
    }

    fn use_title(&self, used: Use) -> String {
        match used {
            Use::Free => "free".into(),
            Use::Unowned => "unowned".into(),
            Use::Owned(part) => self.part_title(part),
            Use::Shared(first, second) => {
                format!("shared by {} and {}", self.part_title(first), self.part_title(second))
            }
        }
    }
}

/// Whether standard output takes colours.
pub fn takes_colours() -> bool {
    let refused = std::env::var_os("NO_COLOR").is_some_and(|value| !value.is_empty());
    std::io::stdout().is_terminal() && !refused
}

/// Writes a picture, but never over the file that it shows.
pub fn save(file: &Path, out: &Path, svg: &str) -> Result<(), String> {
    let inode = |path: &Path| fs::metadata(path).map(|metadata| (metadata.dev(), metadata.ino())).ok();
    if inode(out).is_some_and(|there| inode(file) == Some(there)) {
        return Err(format!("{}: the picture would take the place of the file itself", out.display()));
    }
    fs::write(out, svg).map_err(|error| format!("{}: {error}", out.display()))
}

fn title(file: &str, volume: &Volume) -> String {
    let geometry = volume.image.geometry;
    let sectors = counted(volume.image.count.into(), "sector");
    let bytes = volume.image.bytes;
    let verdict = match validate(bytes, &mut vec![0; work_need(bytes.len())]) {
        Ok(()) => "accepted".into(),
        Err(refusal) => format!("refused {}", refusal.number()),
    };
    format!("{file}: version {}, {sectors} of {} bytes, {verdict}", geometry.major, geometry.sector)
}

fn wrong(volume: &Volume) -> Vec<String> {
    let (found, more) = findings(volume.image.bytes, volume);
    let mut lines: Vec<String> = found.iter().map(|finding| finding.to_string()).collect();
    if more > 0 {
        lines.push(format!("and {} more with a wrong chain", counted(more as u64, "stream")));
    }
    lines
}
