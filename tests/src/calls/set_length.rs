//! Changing a stream's length: its chain is cut, or made longer by the lowest free units; over the cutoff it gives all of its
//! chain up for one of the other kind (W-201).

use super::find::find_stream;
use super::patch::{Patch, cell, field, stream_bytes};
use super::stream::Stream;
use crate::number::*;
use crate::volume::Volume;
use crate::volume::chains::Chains;

const START: usize = 116;
const SIZE: usize = 120;

pub fn set_length(volume: &Volume, path: &[u16], new: u64) -> Result<Vec<Patch>, u32> {
    let found = find_stream(volume, path)?;
    let old = found.size;
    if new == old {
        return Ok(Vec::new());
    }
    let (from, to) = (Space::of(volume, old), Space::of(volume, new));
    let moves = from.unit != to.unit;
    let chain: Vec<u32> = from.chains.units(volume.directory.entry(found.entry).start()).collect();
    let (front, given_up) = if moves { (Vec::new(), chain) } else { cut(chain, to.need(new)) };
    let new_chain = to.lengthened(front, to.need(new))?;

    let g = volume.geometry;
    let mut patches: Vec<Patch> = given_up.into_iter().map(|unit| cell(g, from.table, unit, FREE)).collect();
    let next = new_chain.iter().skip(1).copied().chain([END]);
    patches.extend(new_chain.iter().zip(next).map(|(&unit, next)| cell(g, to.table, unit, next)));
    let start = new_chain.first().copied().unwrap_or(END);
    patches.push(field(volume, found.entry, START, &start.to_le_bytes()));
    patches.push(field(volume, found.entry, SIZE, &new.to_le_bytes()));

    // All of another chain is written, of a longer one what is behind the old length, of a cut one nothing.
    let end = new_chain.len() as u64 * to.unit;
    let place = match (moves, new > old) {
        (true, _) => 0,
        (false, true) => old,
        (false, false) => end,
    };
    let mut bytes = Stream::of(volume, found.entry).bytes(volume.image, place, old.min(new));
    bytes.resize((end - place) as usize, 0);
    patches.extend(stream_bytes(&Stream::of_chain(volume, new, &new_chain), place, &bytes));
    Ok(patches)
}

/// The sectors, or the mini sectors.
struct Space<'a> {
    chains: &'a Chains,
    /// The sectors in which their cells lie.
    table: &'a [u32],
    /// The bytes of each.
    unit: u64,
}

impl Space<'_> {
    /// Those in which a stream of this length lies.
    fn of<'a>(volume: &'a Volume, length: u64) -> Space<'a> {
        match length {
            0..CUTOFF => Space { chains: &volume.mini.chains, table: &volume.mini.fat, unit: MINI_SECTOR },
            _ => Space { chains: &volume.sectors, table: &volume.tables.fat, unit: volume.geometry.sector as u64 },
        }
    }

    fn need(&self, length: u64) -> u64 {
        length.div_ceil(self.unit)
    }

    /// The chain with the lowest free units behind it, so many in all.
    fn lengthened(&self, mut chain: Vec<u32>, count: u64) -> Result<Vec<u32>, u32> {
        let more = count - chain.len() as u64;
        let cells = &self.chains.cells;
        let free: Vec<u32> = (0..cells.len() as u32).filter(|&unit| cells[unit as usize] == FREE).collect();
        if more > free.len() as u64 {
            return Err(26);
        }
        chain.extend(&free[..more as usize]);
        Ok(chain)
    }
}

/// The first units of a chain, at most so many, and the rest.
fn cut(mut chain: Vec<u32>, count: u64) -> (Vec<u32>, Vec<u32>) {
    let rest = chain.split_off(count.min(chain.len() as u64) as usize);
    (chain, rest)
}
