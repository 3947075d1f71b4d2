//! The bytes of a stream, and where they lie in the image.

use crate::number::*;
use crate::volume::Volume;
use std::ops::Range;

pub struct Stream {
    pub size: u64,
    /// The bytes of a unit: 64 below the cutoff, else those of a sector.
    unit: u64,
    /// The byte place of each unit of the chain.
    places: Vec<usize>,
}

impl Stream {
    pub fn of(volume: &Volume, entry: usize) -> Stream {
        let entry = volume.directory.entry(entry);
        let chains = if entry.size() < CUTOFF { &volume.mini.chains } else { &volume.sectors };
        let chain: Vec<u32> = chains.units(entry.start()).collect();
        Stream::of_chain(volume, entry.size(), &chain)
    }

    /// A stream of this size in these units.
    pub fn of_chain(volume: &Volume, size: u64, chain: &[u32]) -> Stream {
        if size < CUTOFF {
            let places = chain.iter().map(|&m| mini_sector_place(volume, m)).collect();
            Stream { size, unit: MINI_SECTOR, places }
        } else {
            let places = chain.iter().map(|&s| volume.geometry.place(s)).collect();
            Stream { size, unit: volume.geometry.sector as u64, places }
        }
    }

    /// The places in the image of the chain's bytes from here to there, piece by piece.
    pub fn pieces(&self, from: u64, to: u64) -> impl Iterator<Item = Range<usize>> + '_ {
        self.places.iter().enumerate().filter_map(move |(i, &place)| {
            let first = i as u64 * self.unit;
            let (low, high) = (from.max(first), to.min(first + self.unit));
            (low < high).then(|| place + (low - first) as usize..place + (high - first) as usize)
        })
    }

    /// The stream's bytes from here to there.
    pub fn bytes(&self, image: &[u8], from: u64, to: u64) -> Vec<u8> {
        self.pieces(from, to).flat_map(|piece| &image[piece]).copied().collect()
    }
}

fn mini_sector_place(volume: &Volume, m: u32) -> usize {
    let (g, m) = (volume.geometry, m as usize);
    g.place(volume.mini.stream[m / g.minis]) + m % g.minis * MINI_SECTOR as usize
}
