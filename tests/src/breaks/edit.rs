//! Small edits that the breaks are made of.

use crate::images::Sample;
use crate::images::layout::Node;
use crate::images::upper;
use crate::images::write::{self, is_large};
use crate::number::*;
use crate::random::Random;

/// Places of fields in an entry.
pub const NAME_BYTES: usize = 64;
pub const KIND: usize = 66;
pub const COLOUR: usize = 67;
pub const LEFT: usize = 68;
pub const RIGHT: usize = 72;
pub const CHILD: usize = 76;
pub const START: usize = 116;
pub const SIZE: usize = 120;
pub const UPPER: usize = 124;

/// A break that is one number at one place.
pub fn put(s: &mut Sample, at: usize, value: u32) -> Option<()> {
    s.put(at, value);
    Some(())
}

/// Another name for an object.
pub fn rename(s: &mut Sample, entry: u32, name: &[u16]) -> Option<()> {
    let at = s.layout.entry(entry);
    write::name(&mut s.image, at, name);
    Some(())
}

/// One of these values that is not the right one.
pub fn wrong(random: &mut Random, right: u32, values: &[u32]) -> u32 {
    let others: Vec<u32> = values.iter().copied().filter(|&value| value != right).collect();
    random.pick(&others)
}

impl Sample {
    pub fn put(&mut self, at: usize, value: u32) {
        put_u32(&mut self.image, at, value);
    }

    pub fn get(&self, at: usize) -> u32 {
        u32_at(&self.image, at)
    }

    /// Gives one byte from here to there another value.
    pub fn spoil(&mut self, random: &mut Random, from: usize, to: usize) -> Option<()> {
        let at = from + random.index(to - from);
        self.image[at] ^= random.between(1, 255) as u8;
        Some(())
    }

    /// The upper half of a size gets one byte that is not zero, or rubbish in all of it.
    pub fn spoil_upper(&mut self, random: &mut Random, entry: u32) -> Option<()> {
        let at = self.layout.entry(entry) + UPPER;
        let value = if random.one_in(2) { upper::rubbish(random) } else { 0 };
        self.put(at, value);
        if value == 0 { self.spoil(random, at, at + 4) } else { Some(()) }
    }

    pub fn set_cell(&mut self, s: u32, value: u32) {
        self.put(self.layout.cell(s), value);
    }

    pub fn set_mini_cell(&mut self, m: u32, value: u32) {
        self.put(self.layout.mini_cell(m), value);
    }

    pub fn set_field(&mut self, entry: u32, field: usize, value: u32) {
        self.put(self.layout.entry(entry) + field, value);
    }

    /// A unit of the node's own kind: sector or mini sector.
    pub fn set_unit(&mut self, large: bool, unit: u32, value: u32) {
        if large { self.set_cell(unit, value) } else { self.set_mini_cell(unit, value) }
    }

    /// A free sector made the one-sector chain of nobody.
    pub fn ended_sector(&mut self, random: &mut Random) -> Option<u32> {
        let s = *random.some(&self.layout.free)?;
        self.set_cell(s, END);
        Some(s)
    }

    /// A free sector made a DIFAT sector without entries.
    pub fn empty_difat_sector(&mut self, random: &mut Random) -> Option<u32> {
        let s = *random.some(&self.layout.free)?;
        let g = self.layout.geometry;
        self.image[g.place(s)..][..g.sector].fill(0xFF);
        self.put(g.place(s) + 4 * g.difat, END);
        self.set_cell(s, DIFSECT);
        Some(s)
    }

    /// A free sector made a directory sector of blank entries behind the last one, and counted where they are.
    pub fn directory_longer(&mut self, random: &mut Random) -> Option<()> {
        let s = *random.some(&self.layout.free)?;
        self.layout.free.retain(|&free| free != s);
        self.set_cell(*self.layout.directory.last()?, s);
        self.set_cell(s, END);
        let first = self.layout.entry_count();
        self.layout.directory.push(s);
        for blank in first..self.layout.entry_count() {
            write::blank_entry(&mut self.image, self.layout.entry(blank));
            self.layout.blanks.push(blank);
        }
        self.count_directory();
        Some(())
    }

    /// The last directory sector given free, if its entries are all blank, and no longer counted where they are.
    pub fn directory_shorter(&mut self) -> Option<()> {
        let from = self.layout.entry_count() - self.layout.geometry.entries as u32;
        let blank = (from..self.layout.entry_count()).all(|entry| self.layout.blanks.contains(&entry));
        (blank && from > 0).then_some(())?;
        let s = self.layout.directory.pop()?;
        self.layout.blanks.retain(|&entry| entry < from);
        self.layout.free.push(s);
        self.set_cell(s, FREE);
        self.set_cell(*self.layout.directory.last()?, END);
        self.count_directory();
        Some(())
    }

    fn count_directory(&mut self) {
        if self.layout.geometry.counts_directory {
            self.put(40, self.layout.directory.len() as u32);
        }
    }

    pub fn storage(&self, random: &mut Random) -> Option<Node> {
        self.node(random, |node| node.entry != 0 && node.size.is_none())
    }

    pub fn stream(&self, random: &mut Random) -> Option<Node> {
        self.node(random, |node| node.size.is_some())
    }

    pub fn object(&self, random: &mut Random) -> Option<Node> {
        self.node(random, |node| node.entry != 0)
    }

    pub fn large(&self, random: &mut Random) -> Option<Node> {
        self.node(random, is_large)
    }

    pub fn small(&self, random: &mut Random) -> Option<Node> {
        self.node(random, |node| !is_large(node) && !node.units.is_empty())
    }

    pub fn empty(&self, random: &mut Random) -> Option<Node> {
        self.node(random, |node| node.size == Some(0))
    }

    /// One of the nodes that are asked for.
    pub fn node(&self, random: &mut Random, asked: fn(&Node) -> bool) -> Option<Node> {
        let nodes: Vec<&Node> = self.layout.nodes.iter().filter(|&node| asked(node)).collect();
        random.some(&nodes).map(|&node| node.clone())
    }

    pub fn node_of(&self, entry: u32) -> Option<&Node> {
        self.layout.nodes.iter().find(|node| node.entry == entry)
    }
}
