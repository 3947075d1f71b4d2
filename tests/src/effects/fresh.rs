//! What a fresh image is (W-209).

use super::held;
use crate::calls::format::Fresh;
use crate::number::*;
use crate::volume::Volume;
use crate::volume::header::zero;
use std::ops::Range;

/// Every byte may change. Validity, rows and blank entries are asked for elsewhere.
pub fn written(after: &[u8], asked: &Fresh) -> Result<Vec<Range<usize>>, &'static str> {
    let volume = Volume::open(after).map_err(|_| "not accepted")?;
    held(volume.geometry.major as u32 == asked.version, "another version")?;
    held(u16_at(after, 24) == 0x3E && u32_at(after, 52) == 0, "minor version or transaction number")?;
    parts(&volume, asked)?;
    root(&volume, asked)?;
    held(volume.mini.chains.cells.iter().all(|&cell| cell == FREE), "a mini sector is not free")?;
    let whole = 0..after.len();
    Ok(vec![whole])
}

/// One behind the other in the order of the papers, each rising; what is behind the mini FAT is zero.
fn parts(volume: &Volume, asked: &Fresh) -> Result<(), &'static str> {
    let (g, tables, mini) = (volume.geometry, &volume.tables, &volume.mini);
    let before_units = [&tables.fat[..], &tables.difat, &volume.directory.sectors, &mini.fat].concat();
    let all = [&before_units[..], &mini.stream].concat();
    held(all.iter().copied().eq(0..all.len() as u32), "the parts are not one behind the other")?;
    let of_sectors = tables.cells[all.len()..].iter();
    held(of_sectors.clone().all(|&cell| cell == FREE), "a sector behind the parts is not free")?;
    let covered_by = |fat: usize| (fat * g.cells) as u64 >= asked.sectors;
    held(covered_by(tables.fat.len()) && !covered_by(tables.fat.len() - 1), "not the fewest FAT sectors")?;
    let counts = [volume.directory.sectors.len(), mini.fat.len(), mini.chains.cells.len()].map(|count| count as u64);
    held(counts == [asked.directory, asked.mini_fat, asked.minis], "not what was asked for")?;
    held(zero(&volume.image[g.place(before_units.len() as u32)..]), "a unit that is not zero")
}

/// All but name, name bytes, type, colour, links, start and size is zero.
fn root(volume: &Volume, asked: &Fresh) -> Result<(), &'static str> {
    let root = volume.directory.root();
    let name = "Root Entry";
    held(root.name_bytes() == 22 && root.name().eq(name.encode_utf16()), "the root's name")?;
    held(!root.is_red(), "a red root")?;
    held([root.left(), root.right(), root.child()] == [NOSTREAM; 3], "a link of the root")?;
    held(u64_at(root.bytes, 120) == asked.minis * MINI_SECTOR, "the length of the mini stream")?;
    held(zero(&root.bytes[2 * name.len()..64]) && zero(&root.bytes[80..116]), "something else in the root's entry")
}
