//! A file cut into sectors.

use super::geometry::Geometry;
use super::number::{ENTRY, FREE, words};

/// Sector numbers from here on have a meaning of their own.
const MOST_SECTORS: usize = 0xFFFF_FFF0;

#[derive(Clone, Copy)]
pub struct Image<'a> {
    pub bytes: &'a [u8],
    pub geometry: Geometry,
    /// N: the whole sectors behind the header.
    pub count: u32,
}

impl<'a> Image<'a> {
    pub fn new(bytes: &'a [u8]) -> Image<'a> {
        let geometry = Geometry::of(bytes);
        let count = (bytes.len() / geometry.sector).saturating_sub(1).min(MOST_SECTORS);
        Image { bytes, geometry, count: count as u32 }
    }

    /// Where a sector starts; the header lies before sector 0.
    pub fn place(&self, sector: u32) -> usize {
        (sector as usize + 1) * self.geometry.sector
    }

    /// The bytes of a sector; none where there is no such sector.
    pub fn sector(&self, sector: u32) -> &'a [u8] {
        if sector >= self.count {
            return &[];
        }
        self.bytes.get(self.place(sector)..).and_then(|rest| rest.get(..self.geometry.sector)).unwrap_or(&[])
    }

    /// The sector that a byte lies in; None in the header and behind the last sector.
    pub fn sector_of(&self, place: usize) -> Option<u32> {
        let sector = (place / self.geometry.sector).checked_sub(1)? as u32;
        (sector < self.count).then_some(sector)
    }

    /// The cells of the table that lies in these sectors. Those of a sector that is not there count as free.
    pub fn table(&self, sectors: &[u32]) -> Vec<u32> {
        let mut cells = Vec::with_capacity(sectors.len() * self.geometry.cells);
        for &sector in sectors {
            let end = cells.len() + self.geometry.cells;
            cells.extend(words(self.sector(sector)));
            cells.resize(end, FREE);
        }
        cells
    }

    /// Where a cell of that table stands.
    pub fn cell_place(&self, table: &[u32], cell: u32) -> Option<usize> {
        let (index, within) = (cell as usize / self.geometry.cells, cell as usize % self.geometry.cells);
        table.get(index).map(|&sector| self.place(sector) + 4 * within)
    }

    /// Where an entry of the directory that lies in these sectors stands.
    pub fn entry_place(&self, directory: &[u32], number: u32) -> Option<usize> {
        let (index, within) = (number as usize / self.geometry.entries, number as usize % self.geometry.entries);
        directory.get(index).map(|&sector| self.place(sector) + ENTRY * within)
    }
}
