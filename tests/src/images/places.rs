//! The byte places of cells, entries and links in an image of a known layout.

use super::layout::Layout;
use crate::number::*;

impl Layout {
    /// The FAT's cell of this number, which may lie from N on.
    pub fn cell(&self, s: u32) -> usize {
        self.geometry.cell(&self.fat, s)
    }

    /// How many cells the FAT has.
    pub fn cell_count(&self) -> u32 {
        (self.fat.len() * self.geometry.cells) as u32
    }

    pub fn mini_cell(&self, m: u32) -> usize {
        self.geometry.cell(&self.mini_fat, m)
    }

    pub fn mini_cell_count(&self) -> u32 {
        (self.mini_fat.len() * self.geometry.cells) as u32
    }

    pub fn entry(&self, number: u32) -> usize {
        self.geometry.entry(&self.directory, number)
    }

    pub fn entry_count(&self) -> u32 {
        (self.directory.len() * self.geometry.entries) as u32
    }

    /// The DIFAT's entry of this number: in the header, or behind it in a DIFAT sector.
    pub fn difat_entry(&self, i: usize) -> usize {
        let g = self.geometry;
        match i.checked_sub(HEADER_DIFAT) {
            None => 76 + 4 * i,
            Some(j) => g.place(self.difat[j / g.difat]) + j % g.difat * 4,
        }
    }

    /// How many entries the DIFAT has room for.
    pub fn difat_entry_count(&self) -> usize {
        HEADER_DIFAT + self.geometry.difat * self.difat.len()
    }

    /// The link at the end of this DIFAT sector, counted from 0.
    pub fn difat_link(&self, i: usize) -> usize {
        self.geometry.place(self.difat[i]) + 4 * self.geometry.difat
    }
}
