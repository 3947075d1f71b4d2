//! Where a rule is broken, and how.

use super::entry::Entry;
use super::image::Image;
use std::fmt;

/// A table that has cells.
#[derive(Clone, Copy, PartialEq, Eq, Debug)]
pub enum Table {
    Fat,
    MiniFat,
}

impl Table {
    pub fn title(self) -> &'static str {
        match self {
            Table::Fat => "FAT",
            Table::MiniFat => "mini FAT",
        }
    }

    /// What its cells stand for.
    pub fn unit(self) -> &'static str {
        match self {
            Table::Fat => "sector",
            Table::MiniFat => "mini sector",
        }
    }
}

#[derive(Clone, PartialEq, Eq, Debug)]
pub struct Finding {
    /// The broken group, 10 to 18; or 1, where the length is not allowed.
    pub group: u32,
    /// The byte of the file at which to look.
    pub offset: Option<usize>,
    /// The sector which that byte lies in; None in the header.
    pub sector: Option<u32>,
    /// The cell which it is about.
    pub cell: Option<(Table, u32)>,
    /// The entry which it is about, and its name where it has one.
    pub entry: Option<(u32, Option<String>)>,
    /// What stands there, and what should.
    pub text: String,
}

impl Finding {
    pub fn new(group: u32, text: impl Into<String>) -> Finding {
        Finding { group, offset: None, sector: None, cell: None, entry: None, text: text.into() }
    }

    pub fn at(self, image: &Image, place: usize) -> Finding {
        Finding { offset: Some(place), sector: image.sector_of(place), ..self }
    }

    pub fn cell(self, table: Table, number: u32) -> Finding {
        Finding { cell: Some((table, number)), ..self }
    }

    /// About an entry, at one of its bytes.
    pub fn entry(self, image: &Image, entry: &Entry, field: usize) -> Finding {
        self.about(entry).at(image, entry.place + field)
    }

    /// About an entry, while the place to look at is another one.
    pub fn about(self, entry: &Entry) -> Finding {
        Finding { entry: Some((entry.number, entry.shown_name())), ..self }
    }

    /// What the group is about.
    pub fn title(&self) -> &'static str {
        match self.group {
            1 => "length",
            10 => "header",
            11 => "table sectors",
            12 => "cells",
            13 => "directory",
            14 => "entry fields",
            15 => "trees",
            16 => "mini tables",
            17 => "streams",
            _ => "owners",
        }
    }

    /// As in "byte 1020 (3FC hex), sector 0, FAT cell 127"; empty where there is no place to name.
    pub fn place(&self) -> String {
        let mut parts = Vec::new();
        if let Some(offset) = self.offset {
            parts.push(format!("byte {offset} ({offset:X} hex)"));
            parts.push(self.sector.map_or("in the header".into(), |sector| format!("sector {sector}")));
        }
        if let Some((table, number)) = self.cell {
            parts.push(format!("{} cell {number}", table.title()));
        }
        match &self.entry {
            Some((number, Some(name))) => parts.push(format!("entry {number} '{name}'")),
            Some((number, None)) => parts.push(format!("entry {number}")),
            None => {}
        }
        parts.join(", ")
    }
}

impl fmt::Display for Finding {
    fn fmt(&self, f: &mut fmt::Formatter<'_>) -> fmt::Result {
        write!(f, "{} ({})", self.group, self.title())?;
        let place = self.place();
        if !place.is_empty() {
            write!(f, ", {place}")?;
        }
        write!(f, ": {}", self.text)
    }
}
