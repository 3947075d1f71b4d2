//! Group 13: the directory's chain and its sectors' count; and its entries by number.

use super::chains::Chains;
use super::entry::Entry;
use super::header::Header;
use crate::geometry::Geometry;
use crate::number::*;

pub struct Directory {
    geometry: Geometry,
    pub sectors: Vec<u32>,
    bytes: Vec<u8>,
}

impl Directory {
    /// None if group 13 is broken.
    pub fn read(g: Geometry, image: &[u8], chains: &Chains, header: &Header) -> Option<Directory> {
        let count = chains.length(header.first_directory);
        if count == 0 || g.counts_directory && header.directory_count as u64 != count {
            return None;
        }
        let sectors: Vec<u32> = chains.units(header.first_directory).collect();
        let bytes = g.gather(image, &sectors);
        Some(Directory { geometry: g, sectors, bytes })
    }

    pub fn count(&self) -> usize {
        self.bytes.len() / ENTRY
    }

    pub fn entry(&self, number: usize) -> Entry<'_> {
        Entry::new(self.geometry, &self.bytes[number * ENTRY..(number + 1) * ENTRY])
    }

    pub fn root(&self) -> Entry<'_> {
        self.entry(0)
    }

    pub fn entries(&self) -> impl Iterator<Item = Entry<'_>> {
        self.bytes.chunks_exact(ENTRY).map(|bytes| Entry::new(self.geometry, bytes))
    }

    /// Group 14.
    pub fn entries_hold(&self) -> bool {
        self.entries().enumerate().all(|(number, entry)| entry.holds(number))
    }
}
