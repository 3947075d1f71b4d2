//! Group 16: the mini FAT and the mini stream.

use super::chains::Chains;
use super::directory::Directory;
use super::header::Header;
use crate::geometry::Geometry;
use crate::number::*;

pub struct Mini {
    pub fat: Vec<u32>,
    pub stream: Vec<u32>,
    /// Over the K cells that count.
    pub chains: Chains,
    /// Whether those from K on are free.
    rest_free: bool,
}

impl Mini {
    /// None if group 16 is broken.
    pub fn read(g: Geometry, image: &[u8], header: &Header, directory: &Directory, sectors: &Chains) -> Option<Mini> {
        Mini::read_but_rest(g, image, header, directory, sectors).filter(|mini| mini.rest_free)
    }

    /// The same without the cells from K on.
    pub fn read_but_rest(
        g: Geometry,
        image: &[u8],
        header: &Header,
        directory: &Directory,
        sectors: &Chains,
    ) -> Option<Mini> {
        let fat_count = header.mini_fat_count as u64;
        let (start, size) = (directory.root().start(), directory.root().size());
        let count = size / MINI_SECTOR;
        let holds = sectors.is_chain(header.first_mini_fat, fat_count)
            && size.is_multiple_of(MINI_SECTOR)
            && sectors.is_chain(start, size.div_ceil(g.sector as u64))
            && g.cells as u64 * fat_count >= count;
        if !holds {
            return None;
        }
        let fat: Vec<u32> = sectors.units(header.first_mini_fat).collect();
        let stream = sectors.units(start).collect();
        let all = words(&g.gather(image, &fat));
        let (cells, rest) = all.split_at(count as usize);
        let allowed = |&cell: &u32| (cell as u64) < count || cell == END || cell == FREE;
        let rest_free = rest.iter().all(|&cell| cell == FREE);
        cells.iter().all(allowed).then(|| Mini { fat, stream, chains: Chains::new(cells), rest_free })
    }
}
