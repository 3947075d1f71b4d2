//! What a change of length does to an image.

use super::held;
use crate::calls::find::find;
use crate::calls::patch::{cell, field};
use crate::calls::stream::Stream;
use crate::number::*;
use crate::volume::Volume;
use std::ops::Range;

/// One stream in an image.
pub struct Seen<'a> {
    volume: Volume<'a>,
    entry: usize,
    pub size: u64,
    pub chain: Vec<u32>,
}

impl Seen<'_> {
    pub fn of<'a>(image: &'a [u8], path: &[u16]) -> Seen<'a> {
        let volume = Volume::open(image).expect("a valid image");
        let found = find(&volume, path).expect("a stream at this path");
        let start = volume.directory.entry(found.entry).start();
        let chains = if found.size < CUTOFF { &volume.mini.chains } else { &volume.sectors };
        let chain = chains.units(start).collect();
        Seen { entry: found.entry, size: found.size, chain, volume }
    }

    /// Whether it lies in mini sectors.
    pub fn is_small(&self) -> bool {
        self.size < CUTOFF
    }

    pub fn stream(&self) -> Stream {
        Stream::of_chain(&self.volume, self.size, &self.chain)
    }

    /// The cells of the image's mini sectors or sectors.
    fn cells(&self, small: bool) -> &[u32] {
        if small { &self.volume.mini.chains.cells } else { &self.volume.sectors.cells }
    }

    /// All its bytes.
    pub fn bytes(&self) -> Vec<u8> {
        self.stream().bytes(self.volume.image, 0, self.size)
    }

    /// All eight bytes of its size.
    pub fn size_field(&self) -> &[u8] {
        &self.volume.directory.entry(self.entry).bytes[120..]
    }

    /// The places of its cells, its start and its size.
    pub fn fields(&self) -> impl Iterator<Item = Range<usize>> {
        let table = if self.is_small() { &self.volume.mini.fat } else { &self.volume.tables.fat };
        let cells = self.chain.iter().map(|&unit| cell(self.volume.geometry, table, unit, FREE));
        let entry = field(&self.volume, self.entry, 116, &[0; 12]);
        cells.chain([entry]).map(|patch| patch.at..patch.at + patch.bytes.len())
    }
}

/// The places that may have changed.
pub fn changed(before: &[u8], after: &[u8], path: &[u16], length: u64) -> Result<Vec<Range<usize>>, &'static str> {
    let (old, new) = (Seen::of(before, path), Seen::of(after, path));
    held(new.size == length, "not the length asked for")?;
    if old.size == new.size {
        return Ok(Vec::new());
    }
    held(new.size_field() == length.to_le_bytes(), "the upper half of the size is not zero")?;
    let mut places: Vec<Range<usize>> = old.fields().chain(new.fields()).collect();
    if crosses(&old, &new) {
        places.extend(moved(&old, &new)?);
    } else if new.size < old.size {
        held(old.chain.starts_with(&new.chain), "a cut chain is not the front of the old one")?;
    } else {
        longer_chain(&old, &new)?;
        places.extend(zero_from(&new, old.size)?);
    }
    Ok(places)
}

/// Whether the stream is on the other side of the cutoff.
pub fn crosses(old: &Seen, new: &Seen) -> bool {
    old.size.min(new.size) > 0 && old.is_small() != new.is_small()
}

/// The old chain, and behind it the lowest free units.
pub fn longer_chain(old: &Seen, new: &Seen) -> Result<(), &'static str> {
    let added = new.chain.strip_prefix(&old.chain[..]).ok_or("a longer chain does not start with the old one")?;
    lowest_free(old, new, added)
}

/// The lowest free units of the other kind, and the old chain free.
pub fn other_chain(old: &Seen, new: &Seen) -> Result<(), &'static str> {
    lowest_free(old, new, &new.chain)?;
    held(old.chain.iter().all(|&unit| new.cells(old.is_small())[unit as usize] == FREE), "the old chain is not free")
}

/// Over the cutoff: another chain, which holds the bytes that are kept and zeros up to its end. The places of its bytes.
fn moved(old: &Seen, new: &Seen) -> Result<Vec<Range<usize>>, &'static str> {
    let kept = old.size.min(new.size);
    other_chain(old, new)?;
    let bytes = |seen: &Seen| seen.stream().bytes(seen.volume.image, 0, kept);
    held(bytes(old) == bytes(new), "other bytes than those that are kept")?;
    zero_from(new, kept)?;
    Ok(new.stream().pieces(0, u64::MAX).collect())
}

/// These units were free before, rise, and left no lower one free.
fn lowest_free(old: &Seen, new: &Seen, added: &[u32]) -> Result<(), &'static str> {
    let (before, after) = (old.cells(new.is_small()), new.cells(new.is_small()));
    held(added.iter().all(|&unit| before[unit as usize] == FREE), "an added unit was not free")?;
    held(added.is_sorted(), "added units do not rise")?;
    let lower = added.last().map_or(0, |&last| last as usize);
    held(!after[..lower].contains(&FREE), "a lower unit was free")
}

/// From here to the chain's end there are zeros. Their places.
pub fn zero_from(new: &Seen, offset: u64) -> Result<Vec<Range<usize>>, &'static str> {
    let wiped: Vec<Range<usize>> = new.stream().pieces(offset, u64::MAX).collect();
    let zero = |part: &Range<usize>| new.volume.image[part.clone()].iter().all(|&byte| byte == 0);
    held(wiped.iter().all(zero), "not zero up to the chain's end")?;
    Ok(wiped)
}
