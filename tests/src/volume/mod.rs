//! An independent reading of a compound file of version 3 or 4, written from the papers.

pub mod chains;
pub mod directory;
pub mod entry;
pub mod header;
pub mod mini;
pub mod owners;
pub mod streams;
pub mod tables;
pub mod tree;

use crate::geometry::{Geometry, V3, V4};
use crate::number::u16_at;
use chains::Chains;
use directory::Directory;
use header::Header;
use mini::Mini;
use tables::Tables;

/// An image of which all groups of rules hold, taken apart.
pub struct Volume<'a> {
    pub geometry: Geometry,
    pub image: &'a [u8],
    pub header: Header,
    pub tables: Tables,
    pub sectors: Chains,
    pub directory: Directory,
    pub mini: Mini,
}

/// The numbers that a work buffer needs for an image of this length, whatever its version.
pub fn work_needed(image_len: usize) -> usize {
    13 * (image_len / 512)
}

/// Which version an image is judged as. It is read only where the length is one of version 3; any major version but 4 is
/// judged as 3.
pub fn version(image: &[u8]) -> Geometry {
    if V3.length_allowed(image.len()) && u16_at(image, 26) == 4 { V4 } else { V3 }
}

/// Whether the length is one of the image's version.
pub fn length_allowed(image: &[u8]) -> bool {
    version(image).length_allowed(image.len())
}

/// 0, or the lowest number that applies.
pub fn validate(image: &[u8], work_len: usize) -> u32 {
    admit(image, work_len).err().unwrap_or(0)
}

/// The volume of an image, or the lowest number that applies: 1, 2, or the first group that the image breaks.
pub fn admit(image: &[u8], work_len: usize) -> Result<Volume<'_>, u32> {
    held(length_allowed(image), 1)?;
    held(work_len >= work_needed(image.len()), 2)?;
    Volume::open(image)
}

impl<'a> Volume<'a> {
    /// The volume of an image of allowed length, or the first group that it breaks.
    pub fn open(image: &'a [u8]) -> Result<Volume<'a>, u32> {
        let volume = Volume::parse(image)?;
        held(owners::hold(&volume), 18)?;
        Ok(volume)
    }

    /// The same with groups 10 to 17 alone.
    pub fn parse(image: &'a [u8]) -> Result<Volume<'a>, u32> {
        let g = version(image);
        let count = g.count(image.len()) as usize;
        let header = Header::read(g, image).ok_or(10u32)?;
        let tables = Tables::read(g, image, count, &header).ok_or(11u32)?;
        held(tables.cells_hold(), 12)?;
        let sectors = Chains::new(&tables.cells[..count]);
        let directory = Directory::read(g, image, &sectors, &header).ok_or(13u32)?;
        held(directory.entries_hold(), 14)?;
        held(tree::holds(&directory), 15)?;
        let mini = Mini::read(g, image, &header, &directory, &sectors).ok_or(16u32)?;
        held(streams::hold(g, &directory, &sectors, &mini.chains), 17)?;
        Ok(Volume { geometry: g, image, header, tables, sectors, directory, mini })
    }
}

fn held(rule: bool, group: u32) -> Result<(), u32> {
    if rule { Ok(()) } else { Err(group) }
}
