//! `cfb new`: a fresh file.

use std::fs;
use std::io;
use std::path::{Path, PathBuf};

use gyomrelas::{Plan, Refusal, format};

use crate::args::Args;
use crate::fault::Fault;
use crate::numbers::count;
use crate::output;
use crate::pending::{PRIVATE, Pending, USUAL};
use crate::source::{self, GREATEST};
use crate::word::{Opt, Word};

pub const WORD: Word = Word {
    name: "new",
    operands: "FILE",
    count: (1, 1),
    options: &[
        Opt { name: "--major", value: Some("3|4"), about: "the version: sectors of 512 or of 4096 bytes (default 3)" },
        Opt {
            name: "--size",
            value: Some("BYTES"),
            about: "the file's size, also 64K or 8M, at most 64M (default 1M)",
        },
        Opt { name: "--sectors", value: Some("N"), about: "in the place of --size: N sectors behind the header" },
        Opt {
            name: "--entries",
            value: Some("N"),
            about: "how many streams and storages it can have, and 1 for the root (default: a 16th of the file)",
        },
        Opt {
            name: "--mini",
            value: Some("BYTES"),
            about: "room for streams of fewer than 4096 bytes (default: an 8th of the file)",
        },
        Opt { name: "--force", value: None, about: "replace a file that is there" },
    ],
    about: "write a fresh file with nothing in it",
    help: "\
Writes a compound file with a root and nothing else. None of its parts ever grows, so they are chosen here: directory
entries for the streams and storages to come, a mini stream for the streams of fewer than 4096 bytes; all other sectors
are free for larger ones. An entry has 128 bytes. Entries are rounded up to whole sectors,
the mini stream to 64 bytes.",
    run,
};

fn run(args: &Args) -> Result<(), Fault> {
    let file = args.file(0);
    let plan = plan(args)?;
    let bytes = (plan.sectors.saturating_add(1)).saturating_mul(sector_bytes(plan.version));
    let asked = args.number("--size")?.unwrap_or(bytes);
    if asked > GREATEST {
        return Err(Fault::of_file(file, Refusal::BadLength));
    }
    let mut image = vec![0; usize::try_from(asked).expect("at most 64 MiB")];
    format(&mut image, plan).map_err(|refusal| Fault::of_file(file, refusal))?;
    write(file, &image, args.has("--force"))?;
    let free = plan.free_sectors().unwrap_or(0);
    output::text(&format!("{}: version {}, {}\n", file.display(), plan.version, count(free, "free sector")))
}

/// What is asked for, with a 16th of the file for the directory and an 8th for the mini stream where nothing is said.
fn plan(args: &Args) -> Result<Plan, Fault> {
    let version = u32::try_from(args.number("--major")?.unwrap_or(3)).unwrap_or(u32::MAX);
    let sector = sector_bytes(version);
    let size = args.number("--size")?;
    let sectors = match (args.number("--sectors")?, size) {
        (Some(_), Some(_)) => return Err(Fault::Usage("new: --size or --sectors, not both".to_string())),
        (Some(sectors), None) => sectors,
        (None, size) => (size.unwrap_or(1 << 20) / sector).saturating_sub(1),
    };
    let mini = args.number("--mini")?.unwrap_or(sectors / 8 * sector);
    let mini_sectors = mini.div_ceil(64);
    let entries = args.number("--entries")?;
    Ok(Plan {
        version,
        sectors,
        directory_sectors: entries.map_or((sectors / 16).max(1), |entries| entries.div_ceil(sector / 128)),
        mini_fat_sectors: mini_sectors.div_ceil(sector / 4),
        mini_sectors,
    })
}

fn sector_bytes(version: u32) -> u64 {
    if version == 4 { 4096 } else { 512 }
}

/// Writes the file where none is, or with force in the place of one that is there.
fn write(file: &Path, image: &[u8], force: bool) -> Result<(), Fault> {
    match fs::symlink_metadata(file) {
        Err(error) if error.kind() == io::ErrorKind::NotFound => Pending::begin(&absent(file)?, USUAL)?.create(image),
        Err(error) => Err(Fault::system(file, error)),
        Ok(_) if !force => Err(Fault::System(format!("{}: it is there already; --force replaces it", file.display()))),
        Ok(_) => {
            source::regular(file)?;
            let target = fs::canonicalize(file).map_err(|error| Fault::system(file, error))?;
            let pending = Pending::begin(&target, PRIVATE)?;
            let old = fs::OpenOptions::new().write(true).open(&target).and_then(|old| old.metadata());
            pending.replace(image, &old.map_err(|error| Fault::system(file, error))?)
        }
    }
}

/// The place of a file that is not there: its folder has to be.
fn absent(file: &Path) -> Result<PathBuf, Fault> {
    let name = file.file_name().ok_or_else(|| Fault::Usage(format!("{}: no file's name", file.display())))?;
    let folder = match file.parent() {
        Some(folder) if !folder.as_os_str().is_empty() => folder,
        _ => Path::new("."),
    };
    let folder = fs::canonicalize(folder).map_err(|error| Fault::system(folder, error))?;
    Ok(folder.join(name))
}
