//! A repair (W-213): four steps on a copy of the image, which takes the image's place if it is valid then.

use crate::geometry::Geometry;
use crate::number::*;
use crate::volume::chains::Chains;
use crate::volume::directory::Directory;
use crate::volume::entry::{ROOT, STORAGE, STREAM};
use crate::volume::header::Header;
use crate::volume::mini::Mini;
use crate::volume::tables::Tables;
use crate::volume::{Volume, length_allowed, tree, version, work_needed};

/// How many cells and colours differ; or the number of what the steps left, and the image as it was.
pub fn repair(image: &mut [u8], work_len: usize, spare: &mut [u8]) -> Result<[u64; 3], u32> {
    if !length_allowed(image) {
        return Err(1);
    }
    if work_len < work_needed(image.len()) || spare.len() < image.len() {
        return Err(2);
    }
    spare[..image.len()].fill(0);
    let mut copy = image.to_vec();
    steps(version(image), &mut copy);
    let count = differing(image, &Volume::open(&copy)?);
    image.copy_from_slice(&copy);
    Ok([count, 0, 0])
}

/// None where one cannot be taken, with the image as those before it left it.
fn steps(g: Geometry, image: &mut [u8]) -> Option<()> {
    // 10 and 11.
    let (header, tables) = read_tables(g, image)?;
    free(g, image, &tables.fat, tables.count as u32..tables.cells.len() as u32);

    // 12 and 13.
    let (_, tables) = read_tables(g, image)?;
    tables.cells_hold().then_some(())?;
    let sectors = Chains::new(&tables.cells[..tables.count]);
    let directory = Directory::read(g, image, &sectors, &header)?;
    blacken(g, image, &directory);

    // 14, 15 and the rest of 16.
    let directory = Directory::read(g, image, &sectors, &header)?;
    (directory.entries_hold() && tree::holds(&directory)).then_some(())?;
    let mini = Mini::read_but_rest(g, image, &header, &directory, &sectors)?;
    free(g, image, &mini.fat, mini.chains.cells.len() as u32..(mini.fat.len() * g.cells) as u32);

    // 10 to 17.
    let [sectors, minis] = unowned(&Volume::parse(image).ok()?);
    free(g, image, &tables.fat, sectors);
    free(g, image, &mini.fat, minis);
    Some(())
}

/// None if group 10 or 11 is broken.
fn read_tables(g: Geometry, image: &[u8]) -> Option<(Header, Tables)> {
    let header = Header::read(g, image)?;
    let tables = Tables::read(g, image, g.count(image.len()) as usize, &header)?;
    Some((header, tables))
}

/// The cells of these units, in the table that lies in these sectors, become free.
fn free(g: Geometry, image: &mut [u8], table: &[u32], units: impl IntoIterator<Item = u32>) {
    for unit in units {
        put_u32(image, g.cell(table, unit), FREE);
    }
}

/// Whatever else the entries hold.
fn blacken(g: Geometry, image: &mut [u8], directory: &Directory) {
    for (number, entry) in directory.entries().enumerate() {
        if [STORAGE, STREAM, ROOT].contains(&entry.kind()) {
            image[g.entry(&directory.sectors, number as u32) + 67] = 1;
        }
    }
}

/// The sectors and the mini sectors that are in no chain and in no table.
fn unowned(volume: &Volume) -> [Vec<u32>; 2] {
    let (of_sectors, of_minis) = (&volume.sectors, &volume.mini.chains);
    let mut sectors = vec![true; of_sectors.cells.len()];
    let mut minis = vec![true; of_minis.cells.len()];
    let (tables, mini) = (&volume.tables, &volume.mini);
    let system = [&tables.fat, &tables.difat, &volume.directory.sectors, &mini.fat, &mini.stream];
    system.into_iter().flatten().for_each(|&s| sectors[s as usize] = false);
    for stream in volume.directory.entries().filter(|entry| entry.kind() == STREAM) {
        match stream.size() {
            0..CUTOFF => of_minis.units(stream.start()).for_each(|m| minis[m as usize] = false),
            _ => of_sectors.units(stream.start()).for_each(|s| sectors[s as usize] = false),
        }
    }
    [sectors, minis].map(|units| (0..).zip(units).filter(|(_, unowned)| *unowned).map(|(unit, _)| unit).collect())
}

/// How many cells and colours of the volume another image has otherwise. They are in the same places there.
fn differing(before: &[u8], volume: &Volume) -> u64 {
    let g = volume.geometry;
    let both = |sectors: &[u32]| [before, volume.image].map(|image| g.gather(image, sectors));
    let cells = |table: &[u32]| {
        let [old, new] = both(table).map(|bytes| words(&bytes));
        old.iter().zip(&new).filter(|(old, new)| old != new).count()
    };
    let [old, new] = both(&volume.directory.sectors);
    let colours = (67..old.len()).step_by(ENTRY).filter(|&at| old[at] != new[at]).count();
    (cells(&volume.tables.fat) + cells(&volume.mini.fat) + colours) as u64
}
