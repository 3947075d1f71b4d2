//! Random damage: bytes anywhere, and numbers in the places that lead somewhere.

use crate::random::Random;
use crate::reader::number::{DIFSECT, END, FATSECT, FREE};
use crate::reader::volume::Volume;

/// What is known of a whole file, for damage to it.
pub struct Target {
    pub bytes: Vec<u8>,
    count: u32,
    /// The places of the tables' sectors, and of the entries in use.
    tables: Vec<usize>,
    entries: Vec<usize>,
    cells: usize,
}

/// The fields of an entry that have numbers in them.
const FIELDS: [usize; 12] = [0, 2, 64, 66, 67, 68, 72, 76, 80, 100, 116, 120];

impl Target {
    pub fn new(bytes: Vec<u8>) -> Target {
        let volume = Volume::of(&bytes);
        let image = volume.image;
        let parts = [&volume.tables.fat, &volume.tables.difat, &volume.mini.fat];
        let tables = parts.into_iter().flatten().map(|&sector| image.place(sector)).collect();
        let used = volume.entries().filter(|entry| entry.kind() != 0 || entry.number < 8);
        let entries = used.map(|entry| entry.place).collect();
        let (count, cells) = (image.count, image.geometry.cells);
        Target { bytes, count, tables, entries, cells }
    }

    /// A damaged copy.
    pub fn variant(&self, random: &mut Random) -> Vec<u8> {
        let mut bytes = self.bytes.clone();
        for _ in 0..random.pick(&[1, 1, 1, 2, 3]) {
            match random.below(20) {
                0..=2 => flip(&mut bytes, random, usize::MAX),
                3 => flip(&mut bytes, random, 512),
                4..=9 => self.cell(&mut bytes, random),
                10..=16 => self.field(&mut bytes, random),
                17 => self.copied(&mut bytes, random),
                18 => self.header(&mut bytes, random),
                _ => lengthen(&mut bytes, random),
            }
        }
        bytes
    }

    /// A cell of a table, mostly one of the first.
    fn cell(&self, bytes: &mut [u8], random: &mut Random) {
        let Some(&table) = self.tables.get(random.below(self.tables.len())) else { return };
        let near = random.pick(&[8, 32, self.cells]);
        let value = self.value(random);
        put(bytes, table + 4 * random.below(near), &value.to_le_bytes());
    }

    fn field(&self, bytes: &mut [u8], random: &mut Random) {
        let Some(&entry) = self.entries.get(random.below(self.entries.len())) else { return };
        let (at, value) = (entry + random.pick(&FIELDS), self.value(random));
        match random.below(3) {
            0 => put(bytes, at, &[value as u8]),
            1 => put(bytes, at, &(random.below(9_999) as u32).to_le_bytes()),
            _ => put(bytes, at, &value.to_le_bytes()),
        }
    }

    /// A whole entry, or a field of one, over another.
    fn copied(&self, bytes: &mut [u8], random: &mut Random) {
        let pick = |random: &mut Random| self.entries.get(random.below(self.entries.len())).copied();
        let (Some(from), Some(to)) = (pick(random), pick(random)) else { return };
        let (at, len) = random.pick(&[(0, 128), (0, 66), (67, 1), (68, 4), (72, 4), (76, 4), (116, 4), (116, 12)]);
        let Some(field) = bytes.get(from + at..from + at + len).map(<[u8]>::to_vec) else { return };
        put(bytes, to + at, &field);
    }

    fn header(&self, bytes: &mut [u8], random: &mut Random) {
        let value = self.value(random);
        put(bytes, random.pick(&[40, 44, 48, 60, 64, 68, 72, 76, 80, 508]), &value.to_le_bytes());
    }

    /// A number that may mean something.
    fn value(&self, random: &mut Random) -> u32 {
        let near = random.below(self.count as usize + 1) as u32;
        let some = [0, 1, 2, near, near, near, self.count - 1, self.count, FREE, END, FATSECT, DIFSECT, 0xFFFF_FFFB];
        if random.below(12) == 0 { random.draw() as u32 } else { random.pick(&some) }
    }
}

fn flip(bytes: &mut [u8], random: &mut Random, most: usize) {
    let at = random.below(bytes.len().min(most));
    let mask = if random.below(2) == 0 { 1 << random.below(8) } else { 1 + random.below(255) };
    if let Some(byte) = bytes.get_mut(at) {
        *byte ^= mask as u8;
    }
}

fn lengthen(bytes: &mut Vec<u8>, random: &mut Random) {
    let len = match random.below(3) {
        0 => bytes.len().saturating_sub(random.pick(&[1, 512, 4096])),
        1 => bytes.len() + random.pick(&[1, 512, 4096]),
        _ => random.below(bytes.len() + 1),
    };
    bytes.resize(len, random.pick(&[0, 0xFF]));
}

/// What falls behind the end is left out: an earlier damage may have cut the file.
fn put(bytes: &mut [u8], at: usize, value: &[u8]) {
    if let Some(place) = bytes.get_mut(at..at + value.len()) {
        place.copy_from_slice(value);
    }
}
