//! The files that are damaged: the samples, and images that the library makes.

use gyomrelas::{Plan, Volume, format, path, work_need};
use std::fs;
use std::path::{Path, PathBuf};

/// A file, and what it is called.
pub type Named = (String, Vec<u8>);

/// All files of samples/ that are compound files, sound or not.
pub fn samples() -> Vec<Named> {
    let folder = Path::new(env!("CARGO_MANIFEST_DIR")).join("../samples");
    let mut files: Vec<PathBuf> =
        ["", "documents", "programs"].iter().flat_map(|part| inside(&folder.join(part))).collect();
    files.sort();
    let named = |file: PathBuf| (file.file_name().unwrap().to_string_lossy().into_owned(), fs::read(&file).unwrap());
    files.into_iter().map(named).collect()
}

fn inside(folder: &Path) -> Vec<PathBuf> {
    let files = fs::read_dir(folder).unwrap().map(|entry| entry.unwrap().path());
    files
        .filter(|file| file.extension().is_some_and(|end| ["cfb", "ole", "msi"].iter().any(|known| end == *known)))
        .collect()
}

/// A fresh image with nothing in it.
pub fn fresh(version: u32, bytes: usize, objects: u64, small_bytes: u64) -> Vec<u8> {
    let mut image = vec![0; bytes];
    format(&mut image, Plan::for_size(version, bytes, objects, small_bytes).unwrap()).unwrap();
    image
}

/// An image with storages, streams on each side of the cutoff, and room left.
pub fn filled(version: u32) -> Vec<u8> {
    let mut image = fresh(version, if version == 3 { 65_536 } else { 262_144 }, 40, 9_000);
    let mut work = vec![0; work_need(image.len())];
    let mut volume = Volume::open(&mut image, &mut work).unwrap();
    for storage in ["Site", "Pumps", "Pumps/Nord"] {
        volume.create_storage(&path(storage)).unwrap();
    }
    let streams = [
        ("Site/log", 9_000),
        ("Site/Jets", 700),
        ("Site/gauge", 64),
        ("empty", 0),
        ("Pumps/Nord/valve", 4_096),
        ("Pumps/Nord/a", 4_095),
        ("Timing", 12_288),
        ("note", 15),
    ];
    for (name, size) in streams {
        volume.create_stream(&path(name)).unwrap();
        volume.set_len(&path(name), size).unwrap();
        volume.overwrite(&path(name), 0, &vec![b'x'; size as usize]).unwrap();
    }
    drop(volume);
    image
}

/// An image with so many FAT sectors, more than it needs, so that there is a DIFAT. All else is the root.
pub fn many_tables(version: u32, fat: usize) -> Vec<u8> {
    let (sector, cells) = if version == 3 { (512, 128) } else { (4096, 1024) };
    let difat = (fat - 109).div_ceil(cells - 1);
    let count = fat + difat + 6;
    let bare = fresh(version, (count + 1) * sector, 1, 0);
    let mut image = vec![0; bare.len()];
    image[..76].copy_from_slice(&bare[..76]);
    let mut put = |at: usize, word: usize| image[at..at + 4].copy_from_slice(&(word as u32).to_le_bytes());
    let place = |s: usize| (s + 1) * sector;
    let free = 0xFFFF_FFFF;
    [(44, fat), (48, fat + difat), (68, fat), (72, difat)].into_iter().for_each(|(at, word)| put(at, word));
    (0..109).for_each(|i| put(76 + 4 * i, i));
    for i in 0..difat * (cells - 1) {
        let at = place(fat + i / (cells - 1)) + 4 * (i % (cells - 1));
        put(at, if 109 + i < fat { 109 + i } else { free });
    }
    (0..difat).for_each(|i| put(place(fat + i + 1) - 4, if i + 1 < difat { fat + i + 1 } else { free - 1 }));
    for cell in 0..fat * cells {
        let kinds = [(fat, free - 2), (fat + difat, free - 3), (fat + difat + 1, free - 1)];
        put(place(0) + 4 * cell, kinds.iter().find(|(end, _)| cell < *end).map_or(free, |(_, value)| *value));
    }
    let (from, to) = (place(bare[48].into()), place(fat + difat));
    image[to..to + sector].copy_from_slice(&bare[from..from + sector]);
    image
}

/// Every file that variants are made of.
pub fn all() -> Vec<Named> {
    let mut all = samples();
    for version in [3, 4] {
        let made = |what: &str, bytes| (format!("{what}, version {version}"), bytes);
        let small = if version == 3 { 4_096 } else { 32_768 };
        all.push(made("fresh", fresh(version, small, 3, 100)));
        all.push(made("filled", filled(version)));
        all.push(made("filled again", filled(version)));
        all.push(made("with a DIFAT", many_tables(version, 112)));
    }
    all.push(("with two DIFAT sectors".into(), many_tables(3, 240)));
    all
}
