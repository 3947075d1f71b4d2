//! Group 14: one pass over the directory, in which nodes and notes are made.

use super::directory::Directory;
use super::image::Image;
use super::names;
use super::nodes::{self, NOT_NAMED, Node};
use super::notes::{self, Need, Note};
use crate::number::*;
use crate::volume::entry::{BLANK, ROOT, STORAGE, STREAM};

/// Of the root's entry.
pub struct Root {
    child: u32,
    pub start: u32,
    pub size: u64,
}

impl Root {
    /// The slot of the top of its tree.
    pub fn top<const S: usize>(&self, image: Image<S>, directory: Directory) -> u32 {
        nodes::slot(self.child, directory.entries(image) as u32)
    }

    /// K; 0 where group 16 refuses it.
    pub fn minis<const S: usize>(&self, image: Image<S>) -> usize {
        if self.size <= (image.count() * S) as u64 { (self.size / MINI_SECTOR) as usize } else { 0 }
    }
}

/// What was seen of the directory.
pub struct Seen {
    /// Storages and streams.
    pub objects: usize,
    /// The notes, of the streams in so many sectors. For the others there was no room.
    pub notes: usize,
    pub noted_sectors: usize,
    /// Some stream's chain cannot be right.
    pub wrong: bool,
}

pub fn root<const S: usize>(image: Image<S>, directory: Directory) -> Result<Root, u32> {
    let entry = directory.entry(image, 0);
    let holds = entry[66] == ROOT && entry[67] <= 1 && u64_at(entry, 68) == u64::MAX && u64_at(entry, 100) == 0;
    if !holds {
        return Err(14);
    }
    let size = if S == 512 { u32_at(entry, 120) as u64 } else { u64_at(entry, 120) };
    Ok(Root { child: u32_at(entry, 76), start: u32_at(entry, 116), size })
}

/// The node of entry x gets slot x + 1.
pub fn read<const S: usize>(
    image: Image<S>,
    directory: Directory,
    nodes: &mut [Node],
    room: &mut [Note],
) -> Result<Seen, u32> {
    let entries = directory.entries(image) as u32;
    let mut seen = Seen { objects: 0, notes: 0, noted_sectors: 0, wrong: false };
    let (mut roots, mut noting) = (0, true);
    let mut slots = nodes[1..].chunks_exact_mut(Image::<S>::ENTRIES);
    for batch in directory.list.rchunks(Image::<S>::AHEAD) {
        image.touch(batch);
        for (&s, slots) in batch.iter().rev().zip(&mut slots) {
            noting &= room.len() - seen.notes >= Image::<S>::ENTRIES;
            seen.noted_sectors += noting as usize;
            for (entry, slot) in image.sectors[s as usize].as_chunks().0.iter().zip(slots) {
                *slot = match entry[66] {
                    STREAM if stream_holds(entry) => {
                        seen.stream::<S>(entry, image.count(), if noting { room } else { &mut [] });
                        nodes::pack(entry, entries)
                    }
                    STORAGE if storage_holds(entry) => {
                        seen.objects += 1;
                        nodes::pack(entry, entries)
                    }
                    BLANK if blank_holds(entry) => NOT_NAMED,
                    ROOT => {
                        roots += 1;
                        NOT_NAMED
                    }
                    _ => return Err(14),
                };
            }
        }
    }
    // The one that was looked at.
    if roots == 1 { Ok(seen) } else { Err(14) }
}

impl Seen {
    /// Notes what it needs, where there is room.
    fn stream<const S: usize>(&mut self, entry: &[u8; ENTRY], sectors: usize, room: &mut [Note]) {
        self.objects += 1;
        match notes::need::<S>(entry, sectors) {
            Need::Nothing => {}
            Need::Wrong => self.wrong = true,
            Need::Chain(note) => {
                if let Some(to) = room.get_mut(self.notes) {
                    *to = note;
                    self.notes += 1;
                }
            }
        }
    }
}

fn blank_holds(entry: &[u8; ENTRY]) -> bool {
    let zero = |from: usize, to: usize| {
        entry[from..to].as_chunks().0.iter().fold(0, |any, &word| any | u64::from_le_bytes(word)) == 0
    };
    // From 64 on: name bytes, kind and colour zero, and three links that name nothing.
    u64_at(entry, 64) == 0xFFFF_FFFF_0000_0000 && u64_at(entry, 72) == u64::MAX && zero(0, 64) && zero(80, 128)
}

fn stream_holds(entry: &[u8; ENTRY]) -> bool {
    let zero = u64_at(entry, 80) | u64_at(entry, 88) | u64_at(entry, 100) | u64_at(entry, 108);
    zero == 0 && u32_at(entry, 76) == NOSTREAM && entry[67] <= 1 && names::legal(entry)
}

fn storage_holds(entry: &[u8; ENTRY]) -> bool {
    u32_at(entry, 116) == 0 && u64_at(entry, 120) == 0 && entry[67] <= 1 && names::legal(entry)
}
