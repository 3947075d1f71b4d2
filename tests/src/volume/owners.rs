//! Group 18: no sector and no mini sector has two owners, and one without an owner has a free cell.

use super::Volume;
use super::chains::Chains;
use super::entry::STREAM;
use crate::number::*;

/// Which units have an owner so far.
struct Owned(Vec<bool>);

impl Owned {
    fn nothing(count: usize) -> Owned {
        Owned(vec![false; count])
    }

    /// Gives these units an owner; false at the first that has one already.
    fn claim(&mut self, units: impl IntoIterator<Item = u32>) -> bool {
        units.into_iter().all(|unit| !std::mem::replace(&mut self.0[unit as usize], true))
    }

    fn others_free(&self, chains: &Chains) -> bool {
        self.0.iter().zip(&chains.cells).all(|(&owned, &cell)| owned || cell == FREE)
    }
}

/// The chains are known to be chains by now.
pub fn hold(volume: &Volume) -> bool {
    let mut sectors = Owned::nothing(volume.sectors.cells.len());
    let mut minis = Owned::nothing(volume.mini.chains.cells.len());
    let system =
        [&volume.tables.fat, &volume.tables.difat, &volume.directory.sectors, &volume.mini.fat, &volume.mini.stream];
    let streams = || volume.directory.entries().filter(|entry| entry.kind() == STREAM);
    system.into_iter().all(|part| sectors.claim(part.iter().copied()))
        && streams().all(|stream| {
            if stream.size() < CUTOFF {
                minis.claim(volume.mini.chains.units(stream.start()))
            } else {
                sectors.claim(volume.sectors.units(stream.start()))
            }
        })
        && sectors.others_free(&volume.sectors)
        && minis.others_free(&volume.mini.chains)
}
