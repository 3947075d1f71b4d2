//! Which sector belongs to whom, of any file that can be read at all.

use super::chains::Chains;
use super::entry::Entry;
use super::number::*;
use super::volume::Volume;

/// Who has a sector.
#[derive(Clone, Copy, PartialEq, Eq, Debug)]
pub enum Use {
    Free,
    /// It is not free, or has no cell, and belongs to nobody.
    Unowned,
    /// A part has it, by its index.
    Owned(usize),
    /// These two parts have it, and perhaps others.
    Shared(usize, usize),
}

#[derive(Clone, Copy, PartialEq, Eq, Debug)]
pub enum Kind {
    Fat,
    Difat,
    Directory,
    MiniFat,
    MiniStream,
    /// The stream of this entry.
    Stream(u32),
}

/// What sectors can belong to.
#[derive(Clone, Copy, PartialEq, Eq, Debug)]
pub struct Part {
    pub kind: Kind,
    pub first: u32,
    /// How many sectors it has, as far as they could be followed.
    pub sectors: u64,
}

pub struct Survey {
    /// One for each sector.
    pub uses: Vec<Use>,
    pub parts: Vec<Part>,
}

impl Survey {
    pub fn of(volume: &Volume) -> Survey {
        let mut claims = Claims::new(volume);
        claims.list(Kind::Fat, &volume.tables.fat);
        claims.list(Kind::Difat, &volume.tables.difat);
        claims.chain(Kind::Directory, volume.header.first_directory);
        claims.chain(Kind::MiniFat, volume.header.first_mini_fat);
        claims.chain(Kind::MiniStream, volume.entry(0).map_or(END, |root| root.start()));
        for stream in volume.streams().filter(large) {
            claims.chain(Kind::Stream(stream.number), stream.start());
        }
        claims.finish(volume)
    }

    /// How many sectors have a use.
    pub fn count(&self, asked: impl Fn(Use) -> bool) -> u64 {
        self.uses.iter().filter(|&&used| asked(used)).count() as u64
    }
}

/// Whether a stream lies in sectors.
fn large(stream: &Entry) -> bool {
    stream.size() >= CUTOFF
}

struct Claims<'a> {
    chains: &'a Chains,
    uses: Vec<Option<Use>>,
    parts: Vec<Part>,
    /// For each sector how many chains came through it, up to 2, and the last of them.
    passed: Vec<(u8, usize)>,
}

impl<'a> Claims<'a> {
    fn new(volume: &'a Volume) -> Claims<'a> {
        let count = volume.image.count as usize;
        Claims { chains: &volume.sectors, uses: vec![None; count], parts: Vec::new(), passed: vec![(0, 0); count] }
    }

    fn claim(&mut self, sector: u32, part: usize) {
        let Some(used) = self.uses.get_mut(sector as usize) else { return };
        *used = match *used {
            None => Some(Use::Owned(part)),
            Some(Use::Owned(first)) if first != part => Some(Use::Shared(first, part)),
            other => other,
        };
    }

    /// Sectors that are named one by one.
    fn list(&mut self, kind: Kind, sectors: &[u32]) {
        let part = self.parts.len();
        sectors.iter().for_each(|&sector| self.claim(sector, part));
        self.parts.push(Part { kind, first: sectors.first().copied().unwrap_or(END), sectors: sectors.len() as u64 });
    }

    /// Sectors that the cells lead to, as far as they do. Where two chains went through a sector, they went on
    /// together to the end: a third stops there, since all that follows is shared already. So no sector is passed more
    /// than twice.
    fn chain(&mut self, kind: Kind, first: u32) {
        let part = self.parts.len();
        let (mut at, mut walked) = (first, 0);
        while let Some(passed) = self.passed.get_mut(at as usize) {
            if *passed == (1, part) || *passed == (2, part) || passed.0 == 2 {
                self.claim(at, part);
                break;
            }
            *passed = (passed.0 + 1, part);
            walked += 1;
            self.claim(at, part);
            let Some(next) = self.chains.next(at) else { break };
            at = next;
        }
        let ended = self.chains.length(first);
        self.parts.push(Part { kind, first, sectors: if ended > 0 { ended } else { walked } });
    }

    fn finish(self, volume: &Volume) -> Survey {
        let unclaimed = |sector: usize| match volume.sectors.next(sector as u32) {
            Some(FREE) => Use::Free,
            _ => Use::Unowned,
        };
        let uses = self.uses.iter().enumerate().map(|(sector, used)| used.unwrap_or_else(|| unclaimed(sector)));
        Survey { uses: uses.collect(), parts: self.parts }
    }
}
