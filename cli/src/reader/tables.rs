//! Where FAT and DIFAT lie, as far as the links lead.

use super::header::{DIFAT, FIRST_DIFAT, Header};
use super::image::Image;
use super::number::*;

pub struct Tables {
    /// The DIFAT's sectors, as far as each is there and comes once.
    pub difat: Vec<u32>,
    /// Where the link stands that ends it, and what it holds.
    pub last_link: (usize, u32),
    /// The DIFAT's entries: the header's, and those of its sectors.
    pub entries: Vec<u32>,
    /// The FAT's sectors: as many entries as the header says, or, where that cannot be, those before the first free
    /// one.
    pub fat: Vec<u32>,
    /// All of the FAT's cells.
    pub cells: Vec<u32>,
}

impl Tables {
    pub fn of(image: &Image, header: &Header) -> Tables {
        let mut difat = Vec::new();
        let mut entries: Vec<u32> = (0..HEADER_DIFAT).map(|i| u32_at(image.bytes, DIFAT + 4 * i)).collect();
        let mut met = vec![false; image.count as usize];
        let mut last_link = (FIRST_DIFAT, header.first_difat);
        // a sector that comes twice ends it, so the links are followed at most N times
        while let Some(met) = met.get_mut(last_link.1 as usize).filter(|met| !**met) {
            *met = true;
            let sector = last_link.1;
            difat.push(sector);
            entries.extend(words(image.sector(sector)).take(image.geometry.difat));
            let place = image.place(sector) + 4 * image.geometry.difat;
            last_link = (place, u32_at(image.bytes, place));
        }
        let fat = fat_sectors(image, header, &entries);
        let cells = image.table(&fat);
        Tables { difat, last_link, entries, fat, cells }
    }

    /// Where an entry of the DIFAT stands.
    pub fn entry_place(&self, image: &Image, index: usize) -> usize {
        match index.checked_sub(HEADER_DIFAT) {
            None => DIFAT + 4 * index,
            Some(behind) => {
                let sector = self.difat.get(behind / image.geometry.difat).copied().unwrap_or(0);
                image.place(sector) + 4 * (behind % image.geometry.difat)
            }
        }
    }

    /// Where the link to the DIFAT sector of this index stands, and what it holds.
    pub fn link(&self, image: &Image, index: usize) -> (usize, u32) {
        match (index.checked_sub(1), self.difat.get(index)) {
            (_, None) => self.last_link,
            (None, Some(&sector)) => (FIRST_DIFAT, sector),
            (Some(before), Some(&sector)) => (image.place(self.difat[before]) + 4 * image.geometry.difat, sector),
        }
    }
}

/// Never more than N, so that the cells take no more memory than the file.
fn fat_sectors(image: &Image, header: &Header, entries: &[u32]) -> Vec<u32> {
    let said = header.fat_count as usize;
    let possible = 1 <= said && said <= entries.len() && said <= image.count as usize;
    let used = entries.iter().take_while(|&&entry| entry != FREE).count();
    let count = if possible { said } else { used.min(image.count as usize) };
    entries[..count].to_vec()
}
