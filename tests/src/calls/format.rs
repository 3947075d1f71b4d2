//! A fresh image (W-209): the header, and one part behind the other, in a buffer whose old bytes are not looked at.

use super::create::new_entry;
use super::remove::blank_entry;
use crate::geometry::{Geometry, V3, V4};
use crate::number::*;
use crate::volume::entry::ROOT;
use crate::volume::tables::difat_needed;
use std::ops::Range;

/// What is asked for. The image that it takes the place of is not looked at, and no work buffer is lent.
#[derive(Clone, Copy, PartialEq, Debug)]
pub struct Fresh {
    pub version: u32,
    /// N.
    pub sectors: u64,
    /// The sectors of the directory and of the mini FAT.
    pub directory: u64,
    pub mini_fat: u64,
    /// K.
    pub minis: u64,
}

/// The sectors of FAT, DIFAT, directory, mini FAT and mini stream.
type Parts = [Range<u32>; 5];

impl Fresh {
    /// The version that it goes by: an unknown one counts as 3.
    pub fn geometry(&self) -> Geometry {
        if self.version == 4 { V4 } else { V3 }
    }

    /// None if the plan cannot be carried out. What is too much for 64 bits does not fit in either.
    fn parts(&self, g: Geometry) -> Option<Parts> {
        let fat = self.sectors.div_ceil(g.cells as u64);
        let mini_stream = self.minis.div_ceil(g.minis as u64);
        let mini_cells = self.mini_fat.checked_mul(g.cells as u64)?;
        if ![3, 4].contains(&self.version) || self.directory == 0 || self.minis > mini_cells {
            return None;
        }
        let mut ends = [0; 6];
        let counts = [fat, difat_needed(g, fat), self.directory, self.mini_fat, mini_stream];
        for (i, count) in counts.into_iter().enumerate() {
            ends[i + 1] = count.checked_add(ends[i])?;
        }
        (ends[5] <= self.sectors).then(|| std::array::from_fn(|i| ends[i] as u32..ends[i + 1] as u32))
    }
}

/// Written whole, or refused with the buffer as it was.
pub fn format(asked: &Fresh, image: &mut [u8]) -> Result<[u64; 3], u32> {
    let g = asked.geometry();
    if !g.length_allowed(image.len()) || asked.sectors != g.count(image.len()) as u64 {
        return Err(1);
    }
    let parts = asked.parts(g).ok_or(32u32)?;
    image.fill(0);
    header(g, &parts, image);
    difat(g, &parts, image);
    tables(g, &parts, image);
    directory(g, &parts, asked.minis, image);
    Ok([0; 3])
}

/// Where a chain of these sectors starts.
fn start(part: &Range<u32>) -> u32 {
    if part.is_empty() { END } else { part.start }
}

/// What follows this sector in its part.
fn next(part: &Range<u32>, s: u32) -> u32 {
    start(&(s + 1..part.end))
}

/// The transaction number, at 52, is zero.
fn header(g: Geometry, [fat, difat, directory, mini_fat, _]: &Parts, image: &mut [u8]) {
    image[..8].copy_from_slice(&[0xD0, 0xCF, 0x11, 0xE0, 0xA1, 0xB1, 0x1A, 0xE1]);
    for (at, value) in [(24, 0x3E), (26, g.major), (28, 0xFFFE), (30, g.shift), (32, 6)] {
        put_u16(image, at, value);
    }
    if g.counts_directory {
        put_u32(image, 40, directory.len() as u32);
    }
    put_u32(image, 56, CUTOFF as u32);
    for (at, part) in [(44, fat), (64, mini_fat), (72, difat)] {
        put_u32(image, at, part.len() as u32);
    }
    for (at, part) in [(48, directory), (60, mini_fat), (68, difat)] {
        put_u32(image, at, start(part));
    }
}

/// The FAT's sectors in the header and in the DIFAT's sectors, free entries behind them, and the links.
fn difat(g: Geometry, [fat, difat, ..]: &Parts, image: &mut [u8]) {
    let in_header = (0..HEADER_DIFAT).map(|i| 76 + 4 * i);
    let in_sectors = difat.clone().flat_map(|s| (0..g.difat).map(move |i| g.place(s) + 4 * i));
    for (i, at) in in_header.chain(in_sectors).enumerate() {
        put_u32(image, at, if i < fat.len() { i as u32 } else { FREE });
    }
    for s in difat.clone() {
        put_u32(image, g.place(s) + 4 * g.difat, next(difat, s));
    }
}

/// All cells are free but those of the parts.
fn tables(g: Geometry, [fat, difat, directory, mini_fat, mini_stream]: &Parts, image: &mut [u8]) {
    for s in fat.clone().chain(mini_fat.clone()) {
        image[g.place(s)..][..g.sector].fill(0xFF);
    }
    let mut cells = vec![FATSECT; fat.len()];
    cells.resize(fat.len() + difat.len(), DIFSECT);
    for part in [directory, mini_fat, mini_stream] {
        cells.extend(part.clone().map(|s| next(part, s)));
    }
    let table: Vec<u32> = fat.clone().collect();
    for (s, cell) in cells.into_iter().enumerate() {
        put_u32(image, g.cell(&table, s as u32), cell);
    }
}

/// The root, and blank entries.
fn directory(g: Geometry, [_, _, directory, _, mini_stream]: &Parts, minis: u64, image: &mut [u8]) {
    for s in directory.clone() {
        image[g.place(s)..][..g.sector].copy_from_slice(&blank_entry().repeat(g.entries));
    }
    let name: Vec<u16> = "Root Entry".encode_utf16().collect();
    let mut root = new_entry(&name, ROOT);
    put_u32(&mut root, 116, start(mini_stream));
    root[120..].copy_from_slice(&(minis * MINI_SECTOR).to_le_bytes());
    image[g.place(directory.start)..][..ENTRY].copy_from_slice(&root);
}
