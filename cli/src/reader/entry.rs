//! One directory entry.

use super::names;
use super::number::*;

pub const BLANK: u8 = 0;
pub const STORAGE: u8 = 1;
pub const STREAM: u8 = 2;
pub const ROOT: u8 = 5;

/// Where the fields stand in an entry.
pub const NAME_BYTES: usize = 64;
pub const TYPE: usize = 66;
pub const COLOUR: usize = 67;
pub const LEFT: usize = 68;
pub const RIGHT: usize = 72;
pub const CHILD: usize = 76;
pub const CLASS: usize = 80;
pub const STATE: usize = 96;
pub const CREATED: usize = 100;
pub const MODIFIED: usize = 108;
pub const START: usize = 116;
pub const SIZE: usize = 120;

#[derive(Clone, Copy)]
pub struct Entry<'a> {
    pub number: u32,
    /// Where it stands in the file.
    pub place: usize,
    pub bytes: &'a [u8],
    pub wide_sizes: bool,
}

impl Entry<'_> {
    pub fn kind(&self) -> u8 {
        u8_at(self.bytes, TYPE)
    }

    pub fn is_red(&self) -> bool {
        u8_at(self.bytes, COLOUR) == 0
    }

    /// One of the three links.
    pub fn link(&self, field: usize) -> u32 {
        u32_at(self.bytes, field)
    }

    pub fn start(&self) -> u32 {
        u32_at(self.bytes, START)
    }

    /// The size as read: in version 3 the lower half of the field.
    pub fn size(&self) -> u64 {
        if self.wide_sizes { u64_at(self.bytes, SIZE) } else { u32_at(self.bytes, SIZE).into() }
    }

    pub fn name_bytes(&self) -> u16 {
        u16_at(self.bytes, NAME_BYTES)
    }

    pub fn unit(&self, index: usize) -> u16 {
        u16_at(self.bytes, 2 * index)
    }

    /// The units that the name bytes say, without the closing zero.
    pub fn name(&self) -> Vec<u16> {
        let count = (self.name_bytes() as usize / 2).clamp(1, 32) - 1;
        (0..count).map(|i| self.unit(i)).collect()
    }

    /// The name as far as a reader can see one, whatever the name bytes say; None where there is none.
    pub fn shown_name(&self) -> Option<String> {
        let units: Vec<u16> = (0..32).map(|i| self.unit(i)).take_while(|&unit| unit != 0).collect();
        (!units.is_empty()).then(|| names::text(&units))
    }

    /// As in "entry 3 'log'".
    pub fn title(&self) -> String {
        match self.shown_name() {
            Some(name) => format!("entry {} '{name}'", self.number),
            None => format!("entry {}", self.number),
        }
    }
}
