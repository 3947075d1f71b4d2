//! Names: which units they have, and their order.

use super::directory::Directory;
use super::image::Image;
use crate::number::*;

/// Units of an entry's name field.
const FIELD: usize = 32;

/// Whether name bytes and units of an object are right. All units of the field are looked at, and those of the name count.
pub fn legal(entry: &[u8; ENTRY]) -> bool {
    let bytes = u16_at(entry, 64);
    if !bytes.is_multiple_of(2) || !(4..=64).contains(&bytes) {
        return false;
    }
    let count = bytes / 2 - 1;
    let units = &entry.as_chunks::<2>().0[..FIELD];
    let mut refused = 0;
    for (i, unit) in (0..).zip(units) {
        let unit = u16::from_le_bytes(*unit);
        let bad = (unit == 0)
            | (unit == b'!' as u16)
            | (unit == b'/' as u16)
            | (unit == b':' as u16)
            | (unit == b'\\' as u16);
        refused |= (bad & (i < count)) as u16;
    }
    refused == 0 && units[count as usize] == [0, 0]
}

/// So many names are read side by side.
const BATCH: usize = 64;

/// Names that have to rise, by the slots of their entries. Each comes after the one before it in the batch and has as many units,
/// but where the units are 0: there a row of them begins.
pub struct Rising<'a, const S: usize> {
    image: Image<'a, S>,
    directory: Directory<'a>,
    batch: [(u32, u32); BATCH],
    count: usize,
}

impl<'a, const S: usize> Rising<'a, S> {
    pub fn new(image: Image<'a, S>, directory: Directory<'a>) -> Self {
        Rising { image, directory, batch: [(0, 0); BATCH], count: 0 }
    }

    /// Two names of so many units. False if those that came before do not rise.
    pub fn add(&mut self, low: u32, high: u32, units: u32) -> bool {
        if self.count + 2 > BATCH && !self.rise() {
            return false;
        }
        if self.count == 0 || self.batch[self.count - 1].0 != low {
            self.batch[self.count] = (low, 0);
            self.count += 1;
        }
        self.batch[self.count] = (high, units);
        self.count += 1;
        true
    }

    /// Whether all of them rise. First each name's ends are read, so that names come from memory side by side.
    pub fn rise(&mut self) -> bool {
        let mut names = [&[0; ENTRY]; BATCH];
        let batch = &self.batch[..self.count];
        self.count = 0;
        let mut touched = 0;
        for (name, &(slot, _)) in names.iter_mut().zip(batch) {
            *name = self.directory.entry(self.image, slot as usize - 1);
            touched |= name[0] | name[2 * FIELD - 1];
        }
        std::hint::black_box(touched);
        let pairs = names.windows(2).zip(&batch[1.min(batch.len())..]);
        pairs.into_iter().all(|(pair, &(_, units))| units == 0 || less(pair[0], pair[1], units as usize))
    }
}

/// Whether the first of two names of so many units comes before the other. Four units are compared at once while they are equal.
fn less(first: &[u8; ENTRY], second: &[u8; ENTRY], count: usize) -> bool {
    let fours = |entry: &[u8; ENTRY], i: usize| u64_at(entry, 8 * i);
    for i in 0..count.div_ceil(4).min(FIELD / 4) {
        let (mut a, mut b) = (fours(first, i), fours(second, i));
        let mut unit = 4 * i;
        while a != b {
            let equal = (a ^ b).trailing_zeros() / 16;
            (a, b) = (a >> (16 * equal), b >> (16 * equal));
            unit += equal as usize;
            let (x, y) = (fold(a as u16), fold(b as u16));
            if unit >= count || x != y {
                return unit < count && x < y;
            }
            // Equal but for the case: as the first is.
            b = b & !0xFFFF | a & 0xFFFF;
        }
    }
    false
}

/// Small letters as capitals (W-211). Digits and capitals, which are most common, are told at once.
fn fold(unit: u16) -> u16 {
    if unit < 0x61 { unit } else { capital(unit) }
}

fn capital(unit: u16) -> u16 {
    match unit {
        0x61..=0x7A | 0xE0..=0xF6 | 0xF8..=0xFE | 0x3B1..=0x3C1 | 0x3C3..=0x3C9 | 0x430..=0x44F => unit - 0x20,
        0x450..=0x45F => unit - 0x50,
        0xFF => 0x178,
        _ => unit,
    }
}
