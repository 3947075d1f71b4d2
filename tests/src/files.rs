//! Sample files, with what the lister must print for them (the files EXPECTED, which no implementation wrote).

use crate::calls::list;
use crate::volume::{admit, work_needed};
use std::collections::BTreeMap;
use std::fs;
use std::path::{Path, PathBuf};

/// The folders of the repository's samples.
pub const FOLDERS: [&str; 3] = ["", "documents", "programs"];

/// What the lister must print, by the file's name.
pub type Expected = BTreeMap<String, String>;

/// A folder of samples. Of `programs`, EXPECTED tells of more files than are kept.
pub fn samples(folder: &str) -> PathBuf {
    Path::new(env!("CARGO_MANIFEST_DIR")).join("../samples").join(folder)
}

/// All files of a folder but the texts about them.
pub fn in_folder(folder: &Path) -> BTreeMap<String, Vec<u8>> {
    let entries = fs::read_dir(folder).expect("a folder that can be read").map(|entry| entry.expect("an entry").path());
    let files = entries.filter(|path| path.is_file());
    let named = files.map(|path| (path.file_name().expect("a name").to_string_lossy().into_owned(), path));
    let images = named.filter(|(name, _)| name != "EXPECTED" && name != "SOURCES" && !name.ends_with(".md"));
    images.map(|(name, path)| (name, fs::read(path).expect("a file that can be read"))).collect()
}

/// The blocks of a folder's EXPECTED: a line `== NAME`, then the output.
pub fn expected(folder: &Path) -> Expected {
    let text = fs::read_to_string(folder.join("EXPECTED")).expect("a file EXPECTED");
    let mut blocks: Vec<(String, String)> = Vec::new();
    for line in text.lines() {
        match line.strip_prefix("== ") {
            Some(name) => blocks.push((name.to_string(), String::new())),
            None => blocks.last_mut().expect("a name first").1 += &format!("{line}\n"),
        }
    }
    blocks.into_iter().collect()
}

/// The answer that an output tells of.
pub fn answer(output: &str) -> u32 {
    output.strip_prefix("refused ").map_or(0, |number| number.trim_end().parse().expect("a number"))
}

/// The listing of a file, by the independent calls.
pub fn listing(image: &[u8]) -> Result<String, u32> {
    let volume = admit(image, work_needed(image.len()))?;
    let mut out = vec![0; list::length(&volume, &list::objects(&volume)) as usize];
    list::list(&volume, &mut out)?;
    Ok(String::from_utf8(out).expect("a listing is of plain letters"))
}
