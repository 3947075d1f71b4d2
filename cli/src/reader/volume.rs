//! A whole file taken apart as far as it can be read. Nothing is refused here: where a number leads nowhere, what lies
//! behind it is missing. The groups of rules (`rules`) and the map (`survey`) look at this.

use super::chains::Chains;
use super::entry::{Entry, STREAM};
use super::header::Header;
use super::image::Image;
use super::number::*;
use super::tables::Tables;

pub struct Volume<'a> {
    pub image: Image<'a>,
    pub header: Header,
    pub tables: Tables,
    /// Over the cells of the sectors that are there.
    pub sectors: Chains,
    /// The directory's sectors.
    pub directory: Vec<u32>,
    pub mini: Mini,
}

/// Mini FAT and mini stream.
pub struct Mini {
    pub fat: Vec<u32>,
    pub stream: Vec<u32>,
    /// K: the mini sectors that the root's size says.
    pub count: u64,
    /// All of the mini FAT's cells.
    pub cells: Vec<u32>,
    /// Over the first K of them.
    pub chains: Chains,
}

impl<'a> Volume<'a> {
    pub fn of(bytes: &'a [u8]) -> Volume<'a> {
        let image = Image::new(bytes);
        let header = Header::of(bytes);
        let tables = Tables::of(&image, &header);
        let sectors = Chains::new(first(&tables.cells, image.count.into()));
        let directory = sectors.follow(header.first_directory);
        let root = entry(&image, &directory, 0);
        let mini = Mini::of(&image, &header, &sectors, root);
        Volume { image, header, tables, sectors, directory, mini }
    }

    /// How many entries the directory has.
    pub fn entry_count(&self) -> u32 {
        (self.directory.len() * self.image.geometry.entries) as u32
    }

    pub fn entry(&self, number: u32) -> Option<Entry<'a>> {
        entry(&self.image, &self.directory, number)
    }

    pub fn entries(&self) -> impl Iterator<Item = Entry<'a>> {
        (0..self.entry_count()).filter_map(|number| self.entry(number))
    }

    pub fn streams(&self) -> impl Iterator<Item = Entry<'a>> {
        self.entries().filter(|entry| entry.kind() == STREAM)
    }

    /// Where a mini sector stands in the file.
    pub fn mini_place(&self, mini: u32) -> Option<usize> {
        let (mini, sector) = (mini as usize * MINI_SECTOR as usize, self.image.geometry.sector);
        self.mini.stream.get(mini / sector).map(|&s| self.image.place(s) + mini % sector)
    }
}

impl Mini {
    fn of(image: &Image, header: &Header, sectors: &Chains, root: Option<Entry>) -> Mini {
        let fat = sectors.follow(header.first_mini_fat);
        let stream = root.map_or(Vec::new(), |root| sectors.follow(root.start()));
        let count = root.map_or(0, |root| root.size() / MINI_SECTOR);
        let cells = image.table(&fat);
        let chains = Chains::new(first(&cells, count));
        Mini { fat, stream, count, cells, chains }
    }
}

/// The first cells of a table, as far as it has them.
fn first(cells: &[u32], count: u64) -> Vec<u32> {
    cells[..cells.len().min(usize::try_from(count).unwrap_or(usize::MAX))].to_vec()
}

fn entry<'a>(image: &Image<'a>, directory: &[u32], number: u32) -> Option<Entry<'a>> {
    let place = image.entry_place(directory, number)?;
    let bytes = image.bytes.get(place..)?.get(..ENTRY)?;
    Some(Entry { number, place, bytes, wide_sizes: image.geometry.wide_sizes })
}
