//! What a repair does to an image, valid or not, where it answers 0 (W-213).

use super::held;
use crate::breaks::edit::COLOUR;
use crate::number::*;
use crate::volume::Volume;
use crate::volume::chains::Chains;
use crate::volume::entry::{BLANK, STREAM};
use std::ops::Range;

type Places = Result<Vec<Range<usize>>, &'static str>;

/// The image is valid. Cells became free and colours black, so many in all. Nothing else changed, so the streams that the directory
/// named have their bytes, if the cells led the same way before.
pub fn repaired(before: &[u8], after: &[u8], count: u64) -> Places {
    let volume = Volume::open(after).map_err(|_| "not valid")?;
    let mut places = freed(before, &volume, &volume.tables.fat)?;
    places.extend(freed(before, &volume, &volume.mini.fat)?);
    places.extend(blackened(before, &volume)?);
    held(places.len() as u64 == count, "another number of cells and colours")?;
    same_chains(before, &volume)?;
    Ok(places)
}

/// The cells that changed in the table that lies in these sectors.
fn freed(before: &[u8], volume: &Volume, table: &[u32]) -> Places {
    let (g, after) = (volume.geometry, volume.image);
    let cells = table.iter().flat_map(|&s| (g.place(s)..g.place(s) + g.sector).step_by(4));
    let changed: Vec<usize> = cells.filter(|&at| before[at..at + 4] != after[at..at + 4]).collect();
    held(changed.iter().all(|&at| u32_at(after, at) == FREE), "a cell changed that is not free")?;
    Ok(changed.into_iter().map(|at| at..at + 4).collect())
}

/// The colours that changed. Every entry that is not blank is black.
fn blackened(before: &[u8], volume: &Volume) -> Places {
    let mut places = Vec::new();
    for (number, entry) in volume.directory.entries().enumerate().filter(|(_, entry)| entry.kind() != BLANK) {
        let at = volume.geometry.entry(&volume.directory.sectors, number as u32) + COLOUR;
        held(entry.bytes[COLOUR] == 1, "an entry that is not black")?;
        places.extend((before[at] != 1).then_some(at..at + 1));
    }
    Ok(places)
}

/// Directory, mini FAT, mini stream and streams, by the cells before and after.
fn same_chains(before: &[u8], volume: &Volume) -> Result<(), &'static str> {
    let (g, header, mini) = (volume.geometry, &volume.header, &volume.mini);
    let cells = |table: &[u32]| words(&g.gather(before, table));
    let (sector_cells, mini_cells) = (cells(&volume.tables.fat), cells(&mini.fat));
    let root = volume.directory.root();
    let led = |chains: &Chains, old: &[u32], start: u32| {
        let units: Vec<u32> = chains.units(start).collect();
        let next = units.iter().skip(1).copied().chain([END]);
        units.iter().zip(next).all(|(&unit, next)| old[unit as usize] == next)
    };
    for start in [header.first_directory, header.first_mini_fat, root.start()] {
        held(led(&volume.sectors, &sector_cells, start), "a chain of the system was another")?;
    }
    for stream in volume.directory.entries().filter(|entry| entry.kind() == STREAM) {
        let same = match stream.size() {
            0..CUTOFF => led(&mini.chains, &mini_cells, stream.start()),
            _ => led(&volume.sectors, &sector_cells, stream.start()),
        };
        held(same, "a stream's chain was another")?;
    }
    Ok(())
}
