//! What is made: empty images, a few objects, many, lists of edits, long tables. Names have nothing in them that a file's name cannot have.

use super::Made;
use crate::calls::format::Fresh;
use crate::geometry::{Geometry, V3, VERSIONS};
use crate::random::Random;

/// The longest image.
const LONGEST: usize = 67_108_864;

/// Each with its name and what it is, one after the other, since some are long.
pub fn each(next: &mut dyn FnMut(String, &str, Made)) {
    for g in VERSIONS {
        let mut made = |name: &str, what: &str, image| next(format!("{name}{}", g.major), what, image);
        made("empty", "the smallest, nothing in it", Made::fresh(asked(g, 2, 0, 0)));
        made("few", "streams on each side of the cutoff, names in other letters, an empty storage", few(g));
        made("edited", "streams that grew, were cut, went over the cutoff and came back; others removed", edited(g));
        made("many", "300 streams in 30 storages", many(g));
        made("deep", "30 storages, one in the other", deep(g));
        made("longest", "64 MiB, one stream of 60,000,000 bytes", long(g, g.count(LONGEST), 60_000_000));
    }
    let mut tables = |fat: u32, what: &str| {
        let sectors = fat * V3.cells as u32;
        next(format!("fat{fat}"), what, long(V3, sectors, 7_000_000));
    };
    tables(109, "109 FAT sectors, no DIFAT sector");
    tables(110, "110 FAT sectors, one DIFAT sector");
    tables(237, "237 FAT sectors, two DIFAT sectors");
}

/// With room for so many objects, and so many mini sectors.
fn asked(g: Geometry, sectors: u32, objects: usize, minis: usize) -> Fresh {
    let (directory, mini_fat) = (1 + objects / g.entries, minis.div_ceil(g.cells));
    Fresh {
        version: g.major as u32,
        sectors: sectors as u64,
        directory: directory as u64,
        mini_fat: mini_fat as u64,
        minis: minis as u64,
    }
}

/// So many bytes, other ones for each number.
fn bytes(number: u64, count: usize) -> Vec<u8> {
    let mut bytes = vec![0; count];
    Random::of(9, number).fill(&mut bytes);
    bytes
}

fn few(g: Geometry) -> Made {
    let mut made = Made::fresh(asked(g, g.count(61_440), 12, 100));
    for path in ["Site", "Site/Ärger", "Void", "Site/Ärger/Жук"] {
        made.storage(path);
    }
    let names = [
        "log",
        "Jets",
        "Site/log",
        "Site/Σίγμα",
        "Site/Ärger/ÿ",
        "note",
        "Site/x y.z",
        "thirty-one units of a long name",
    ];
    let lengths = [0, 1, 63, 64, 65, 4_095, 4_096, 4_097];
    for (i, (name, length)) in names.into_iter().zip(lengths).enumerate() {
        made.stream(name, &bytes(i as u64, length));
    }
    made
}

fn edited(g: Geometry) -> Made {
    let mut made = Made::fresh(asked(g, g.count(122_880), 12, 200));
    for (i, name) in ["a", "b", "c", "d", "e", "f"].into_iter().enumerate() {
        made.stream(name, &bytes(i as u64, [5_000, 70, 9_000, 4_095, 300, 12_288][i]));
    }
    made.remove("a");
    made.set_length("b", 7_000);
    made.overwrite("b", 6_900, &bytes(7, 100));
    made.set_length("c", 4_097);
    made.set_length("d", 4_100);
    made.set_length("f", 100);
    made.set_length("e", 65);
    made.storage("Store");
    made.stream("Store/new", &bytes(8, 11_111));
    made.remove("c");
    made.set_length("Store/new", 20_000);
    made.set_length("d", 60);
    made.stream("A", &bytes(9, 4_000));
    made
}

/// Names of all lengths, in an order that gives the trees depth.
fn many(g: Geometry) -> Made {
    let mut made = Made::fresh(asked(g, g.count(4 << 20), 340, 9_000));
    let storage = |i: usize| format!("storage {}", i * 7 % 30);
    for i in 0..30 {
        made.storage(&storage(i));
    }
    for i in 0..300 {
        let number = i * 77 % 300;
        let name = format!("{}/stream {number}{}", storage(number % 30), "x".repeat(number % 17));
        made.stream(&name, &bytes(i as u64, i * 41 % 6_000));
    }
    made
}

fn deep(g: Geometry) -> Made {
    let mut made = Made::fresh(asked(g, g.count(245_760), 62, 200));
    let mut path = String::from("0");
    for i in 1..=30 {
        made.storage(&path);
        made.stream(&format!("{path}/in it"), &bytes(i, 10 * i as usize));
        path += &format!("/{i}");
    }
    made.stream(&path, &bytes(0, 10_000));
    made
}

/// One long stream and a small one.
fn long(g: Geometry, sectors: u32, count: usize) -> Made {
    let mut made = Made::fresh(asked(g, sectors, 2, 2));
    made.stream("long", &bytes(1, count));
    made.stream("small", &bytes(2, 100));
    made
}
