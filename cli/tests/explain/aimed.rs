//! Damage that is aimed at one rule: the group is known beforehand, and so is the place that must be found.

use crate::compare::{Seen, answer};
use crate::images;
use crate::reader::entry::*;
use crate::reader::number::{DIFSECT, END, FATSECT, FREE};
use crate::reader::volume::Volume;

/// A number of some bytes put at a place, and the place that the finding must name.
struct Shot {
    at: usize,
    bytes: Vec<u8>,
    found: usize,
}

/// At a place, which is also what must be found.
fn word(at: usize, value: u32) -> Shot {
    Shot { at, bytes: value.to_le_bytes().into(), found: at }
}

fn byte(at: usize, value: u8) -> Shot {
    Shot { at, bytes: vec![value], found: at }
}

impl Shot {
    fn found_at(self, found: usize) -> Shot {
        Shot { found, ..self }
    }
}

/// A rule: its group, what is done, and to which part of the file.
type Aim = (u32, &'static str, fn(&Volume) -> Shot);

fn entry<'a>(volume: &Volume<'a>, name: &str) -> Entry<'a> {
    volume.entries().find(|entry| entry.shown_name().as_deref() == Some(name)).expect("the image has it")
}

fn field(volume: &Volume, name: &str, field: usize) -> usize {
    entry(volume, name).place + field
}

fn start(volume: &Volume, name: &str) -> u32 {
    entry(volume, name).start()
}

/// The place of a FAT cell.
fn cell(volume: &Volume, sector: u32) -> usize {
    volume.image.cell_place(&volume.tables.fat, sector).expect("it has a cell")
}

fn mini_cell(volume: &Volume, mini: u32) -> usize {
    volume.image.cell_place(&volume.mini.fat, mini).expect("it has a cell")
}

/// A sector that is free.
fn free(volume: &Volume) -> u32 {
    volume.sectors.cells.iter().position(|&cell| cell == FREE).expect("there is one") as u32
}

const HEADER: &[Aim] = &[
    (10, "signature", |_| byte(3, 0)),
    (10, "class identifier", |_| byte(23, 1)),
    (10, "major version", |_| byte(26, 5)),
    (10, "byte order", |_| byte(28, 0xFF)),
    (10, "sector shift", |_| byte(30, 10)),
    (10, "mini sector shift", |_| byte(32, 7)),
    (10, "reserved", |_| byte(39, 1)),
    (10, "cutoff", |_| word(56, 4095)),
];

const TABLES: &[Aim] = &[
    (11, "no FAT sector", |_| word(44, 0)),
    (11, "more FAT sectors than sectors", |_| word(44, 5000)),
    (11, "a DIFAT sector too many", |_| word(72, 1)),
    (11, "a DIFAT that is not needed", |_| word(68, 3)),
    (11, "a FAT sector that is not there", |volume| word(76, volume.image.count)),
    (11, "an entry behind the last", |volume| word(76 + 4 * volume.tables.fat.len(), 9)),
    (11, "the last entry of the header", |_| word(508, 0)),
    (11, "a FAT sector without its mark", |volume| word(cell(volume, 0), END)),
    (11, "FATSECT elsewhere", |volume| word(cell(volume, free(volume)), FATSECT)),
    (11, "DIFSECT elsewhere", |volume| word(cell(volume, start(volume, "log")), DIFSECT)),
];

const CELLS: &[Aim] = &[
    (12, "a sector that is not there", |volume| word(cell(volume, free(volume)), volume.image.count)),
    (12, "an unknown mark", |volume| word(cell(volume, start(volume, "log")), 0xFFFF_FFFB)),
    (12, "a cell for no sector", |volume| word(cell(volume, volume.image.count), 1)),
    (12, "FATSECT for no sector", |volume| word(cell(volume, volume.image.count), FATSECT)),
    (13, "no directory", |_| word(48, END)),
    (13, "a directory that is not there", |volume| word(48, volume.image.count)),
    (13, "a directory in free sectors", |volume| word(48, free(volume)).found_at(cell(volume, free(volume)))),
    (13, "a directory in a ring", |volume| {
        let last = volume.directory[volume.directory.len() - 1];
        word(cell(volume, last), volume.header.first_directory)
    }),
];

const FIELDS: &[Aim] = &[
    (14, "the root's type", |volume| byte(field(volume, "Root Entry", TYPE), STORAGE)),
    (14, "the root's sibling", |volume| word(field(volume, "Root Entry", LEFT), 1)),
    (14, "the root's creation time", |volume| byte(field(volume, "Root Entry", MODIFIED - 1), 1)),
    (14, "a second root", |volume| byte(field(volume, "Site", TYPE), ROOT)),
    (14, "an unknown type", |volume| byte(field(volume, "log", TYPE), 3)),
    (14, "a colour", |volume| byte(field(volume, "log", COLOUR), 2)),
    (14, "an odd name length", |volume| byte(field(volume, "log", NAME_BYTES), 7)),
    (14, "a name length of 2", |volume| byte(field(volume, "log", NAME_BYTES), 2)),
    (14, "a slash", |volume| byte(field(volume, "log", 2), b'/')),
    (14, "an exclamation mark", |volume| byte(field(volume, "log", 4), b'!')),
    (14, "no zero at a name's end", |volume| byte(field(volume, "log", 6), b'x')),
    (14, "a zero in a name", |volume| byte(field(volume, "log", 2), 0)),
    (14, "a stream's child", |volume| word(field(volume, "log", CHILD), 1)),
    (14, "a stream's class", |volume| byte(field(volume, "log", STATE - 1), 1)),
    (14, "a stream's time", |volume| byte(field(volume, "log", MODIFIED), 1)),
    (14, "a storage's start", |volume| word(field(volume, "Site", START), 1)),
    (14, "a storage's size", |volume| byte(field(volume, "Site", SIZE + 7), 1)),
    (14, "a blank entry's link", |volume| word(blank(volume) + CHILD, 0)),
    (14, "a blank entry's size", |volume| byte(blank(volume) + SIZE, 1)),
];

fn blank(volume: &Volume) -> usize {
    volume.entries().find(|entry| entry.kind() == BLANK).expect("there is one").place
}

const TREES: &[Aim] = &[
    (15, "a link to the root", |volume| word(field(volume, "log", LEFT), 0)),
    (15, "a link behind the directory", |volume| word(field(volume, "log", LEFT), volume.entry_count())),
    (15, "a link to a blank entry", |volume| word(field(volume, "log", LEFT), volume.entry_count() - 1)),
    (15, "a link to itself", |volume| word(field(volume, "log", LEFT), entry(volume, "log").number)),
    (15, "a red top", |volume| byte(field(volume, "log", COLOUR), 0)),
    (15, "a stream that is not reached", |volume| {
        let lost = entry(volume, "log").link(RIGHT);
        let first = volume.entry(lost).expect("there is one");
        word(field(volume, "log", RIGHT), FREE).found_at(first.place)
    }),
    (15, "a name out of order", |volume| byte(field(volume, "note", 0), b'z')),
    (15, "two equal names", |volume| {
        let bytes: Vec<u8> = "NOTE".encode_utf16().flat_map(u16::to_le_bytes).collect();
        let at = field(volume, "Site", 0);
        Shot { at, bytes, found: field(volume, "note", 0) }
    }),
];

const MINI: &[Aim] = &[
    (16, "a mini FAT that is too long", |volume| {
        word(64, volume.header.mini_fat_count + 1).found_at(cell(volume, last(&volume.mini.fat)))
    }),
    (16, "a mini FAT that is not there", |_| word(60, END)),
    (16, "a size of no whole mini sectors", |volume| byte(field(volume, "Root Entry", SIZE), 1)),
    (16, "a mini stream that is not there", |volume| word(field(volume, "Root Entry", START), END)),
    (16, "a mini stream that is too short", |volume| {
        let stream = &volume.mini.stream;
        word(cell(volume, stream[0]), END)
    }),
    (16, "a mini sector that is not there", |volume| word(mini_cell(volume, 0), volume.mini.count as u32)),
    (16, "a mini cell for no mini sector", |volume| word(mini_cell(volume, volume.mini.count as u32), END)),
];

fn last(units: &[u32]) -> u32 {
    units[units.len() - 1]
}

const STREAMS: &[Aim] = &[
    (17, "an empty stream that starts", |volume| word(field(volume, "empty", START), 0)),
    (17, "a stream that does not start", |volume| word(field(volume, "log", START), END)),
    (17, "a stream from a free sector", |volume| {
        word(field(volume, "log", START), free(volume)).found_at(cell(volume, free(volume)))
    }),
    (17, "a small stream that does not start", |volume| word(field(volume, "Jets", START), FREE)),
    (17, "a stream that ends too early", |volume| word(cell(volume, start(volume, "log")), END)),
    (17, "a stream in a ring", |volume| word(cell(volume, start(volume, "log")), start(volume, "log"))),
    (17, "a small stream that ends too early", |volume| word(mini_cell(volume, start(volume, "Jets")), END)),
    (17, "a small stream that goes on", |volume| {
        word(mini_cell(volume, start(volume, "note")), start(volume, "gauge"))
    }),
    (17, "a size that is too large", |volume| {
        let chain = volume.sectors.follow(start(volume, "log"));
        word(field(volume, "log", SIZE), 60_000).found_at(cell(volume, last(&chain)))
    }),
];

const OWNERS: &[Aim] = &[
    (18, "a sector that is nobody's", |volume| word(cell(volume, free(volume)), END)),
    (18, "a mini sector that is nobody's", |volume| word(mini_cell(volume, volume.mini.count as u32 - 1), END)),
    (18, "a sector of two streams", |volume| {
        // as long as the one whose sectors it takes
        let chain = volume.sectors.follow(start(volume, "Timing"));
        let later = volume.image.place(chain[chain.len() - volume.sectors.follow(start(volume, "valve")).len()]);
        let from = volume.image.sector_of(later).expect("a sector");
        word(field(volume, "valve", START), from).found_at(later)
    }),
    (18, "a mini sector of two streams", |volume| {
        let shared = start(volume, "gauge");
        word(field(volume, "note", START), shared).found_at(volume.mini_place(shared).expect("it is there"))
    }),
];

/// Those of one version.
const ONLY_3: &[Aim] = &[(10, "a count of directory sectors", |_| word(40, 1))];
const ONLY_4: &[Aim] = &[
    (10, "the rest of the header's sector", |_| byte(4095, 1)),
    (13, "the count of directory sectors", |_| word(40, 9)),
    (17, "a size above all memory", |volume| {
        let chain = volume.sectors.follow(start(volume, "log"));
        byte(field(volume, "log", SIZE + 7), 0xFF).found_at(cell(volume, last(&chain)))
    }),
];

/// Those of the DIFAT.
const DIFAT: &[Aim] = &[
    (11, "too few DIFAT sectors", |_| word(72, 0)),
    (11, "no DIFAT sector", |_| word(68, END)),
    (11, "a DIFAT sector that is not there", |volume| word(68, volume.image.count)),
    (11, "a DIFAT that goes on", |volume| word(volume.tables.last_link.0, 1)),
    (11, "a DIFAT in a ring", |volume| word(volume.tables.last_link.0, volume.tables.difat[0])),
    (11, "a FAT sector that is not there", |volume| word(volume.image.place(volume.tables.difat[0]), 0x00FF_FFFF)),
    (11, "a FAT sector twice", |volume| word(volume.image.place(volume.tables.difat[0]), 0)),
    (11, "a FAT sector that is a DIFAT sector", |volume| word(80, volume.tables.difat[0])),
    (11, "an entry behind the last", |volume| word(volume.tables.last_link.0 - 4, 0)),
    (11, "a DIFAT sector without its mark", |volume| word(cell(volume, volume.tables.difat[0]), FREE)),
];

fn shoot(seen: &mut Seen, whole: &[u8], aims: &[Aim]) {
    assert_eq!(answer(whole), 0, "the image is accepted before");
    for (group, rule, aim) in aims {
        let shot = aim(&Volume::of(whole));
        let mut bytes = whole.to_vec();
        bytes[shot.at..shot.at + shot.bytes.len()].copy_from_slice(&shot.bytes);
        let finding = seen.compare(rule, &bytes).unwrap_or_else(|| panic!("{rule}: accepted"));
        println!("  {finding}");
        assert_eq!((finding.group, finding.offset), (*group, Some(shot.found)), "{rule}: {finding}");
        Seen::survey(&bytes);
    }
}

#[test]
fn aimed_damage_is_found_where_it_is() {
    let mut seen = Seen::default();
    for (version, only) in [(3, ONLY_3), (4, ONLY_4)] {
        let whole = images::filled(version);
        for aims in [HEADER, TABLES, CELLS, FIELDS, TREES, MINI, STREAMS, OWNERS, only] {
            shoot(&mut seen, &whole, aims);
        }
        shoot(&mut seen, &images::many_tables(version, 112), DIFAT);
    }
    shoot(&mut seen, &images::many_tables(3, 240), DIFAT);
    seen.report("aimed damage");
}

/// The sample has a red top, and red below it.
#[test]
fn red_below_red() {
    let wine = images::samples().into_iter().find(|(name, _)| name == "wine-17.ole");
    let mut bytes = wine.expect("the sample is there").1;
    let top = Volume::of(&bytes).entry(0).expect("the root").link(CHILD);
    let place = Volume::of(&bytes).entry(top).expect("the top").place + COLOUR;
    let finding = Seen::default().compare("a red top", &bytes).expect("it is refused");
    assert_eq!((finding.group, finding.offset), (15, Some(place)));
    bytes[place] = 1;
    let finding = Seen::default().compare("red below red", &bytes).expect("it is refused");
    assert!(finding.group == 15 && finding.text.contains("right above it"), "{finding}");
}

#[test]
fn lengths_are_told() {
    let mut seen = Seen::default();
    for version in [3, 4] {
        let whole = images::filled(version);
        for length in [0, 27, 511, 512, 1_024, 1_536, 1_540, 8_192, 12_800, whole.len() - 1, whole.len() - 512] {
            seen.compare("cut", &whole[..length]);
        }
        let mut longer = whole.clone();
        longer.resize(67_108_864 + 4_096, 0);
        assert_eq!(seen.compare("too long", &longer).map(|finding| finding.group), Some(1));
    }
    seen.report("lengths");
}
