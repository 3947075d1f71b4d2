//! Group 17: the streams' chains, and what group 18 asks of them.

use super::chains::{Broken, Lanes};
use super::directory::Directory;
use super::entries::Seen;
use super::image::Image;
use super::notes::{self, LARGE, Need, Note};
use crate::volume::entry::STREAM;

/// The units of all streams, each counted as often as it stands in a chain.
pub struct Owned {
    pub sectors: usize,
    pub minis: usize,
    /// A unit is two chains'.
    pub shared: bool,
}

pub fn check<const S: usize>(
    image: Image<S>,
    directory: Directory,
    seen: &Seen,
    notes: &[Note],
    next: &mut [u32],
    minis: &mut [u32],
) -> Result<Owned, u32> {
    if seen.wrong {
        return Err(17);
    }
    let mut chains = Chains { large: Lanes::new(directory.list.len() as u32), small: Lanes::new(0), next, minis };
    chains.all(image, directory, seen, notes).or(Err(17u32))?;
    let Chains { large, small, .. } = chains;
    Ok(Owned { sectors: large.units, minis: small.units, shared: large.shared || small.shared })
}

struct Chains<'a> {
    large: Lanes,
    small: Lanes,
    next: &'a mut [u32],
    minis: &'a mut [u32],
}

impl Chains<'_> {
    /// Those noted, and then those for which there was no room.
    fn all<const S: usize>(
        &mut self,
        image: Image<S>,
        directory: Directory,
        seen: &Seen,
        notes: &[Note],
    ) -> Result<(), Broken> {
        for &note in &notes[..seen.notes] {
            self.add(note)?;
        }
        for s in directory.from(seen.noted_sectors) {
            for entry in image.sectors[s as usize].as_chunks().0.iter().filter(|entry| entry[66] == STREAM) {
                if let Need::Chain(note) = notes::need::<S>(entry, image.count()) {
                    self.add(note)?;
                }
            }
        }
        self.large.finish(self.next)?;
        self.small.finish(self.minis)
    }

    fn add(&mut self, [start, units]: Note) -> Result<(), Broken> {
        match units & LARGE {
            0 => self.small.add(self.minis, start, units),
            _ => self.large.add(self.next, start, units & !LARGE),
        }
    }
}
