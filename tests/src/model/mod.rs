//! What the papers say of calls, worked out from the first image's layout and the calls alone: one row for each object,
//! a stream's with its bytes. Nothing here looks at an image after the first.

mod edits;
mod fresh;
mod holds;
mod lines;
mod objects;
mod pulse;
mod repair;
pub mod room;

use crate::breaks::edit::COLOUR;
use crate::calls::{Call, Outcome};
use crate::geometry::Geometry;
use crate::images::Sample;
use crate::images::layout::Node;
use crate::images::names;
use crate::images::write::is_large;
use crate::number::*;
use std::collections::BTreeSet;

#[derive(Clone)]
pub struct Row {
    /// The names from below the root down to the object, as they are spelled.
    pub path: Vec<Vec<u16>>,
    /// The same as they are compared.
    key: Vec<(usize, Vec<u16>)>,
    pub entry: u32,
    red: bool,
    /// None for a storage and the root.
    pub bytes: Option<Vec<u8>>,
}

#[derive(Clone)]
pub struct Model {
    pub geometry: Geometry,
    /// The root first.
    pub rows: Vec<Row>,
    /// N, K, and the sectors of FAT, DIFAT, directory, mini FAT and mini stream.
    sectors: u64,
    minis: u64,
    fixed: u64,
    /// The entries that are blank.
    pub blanks: BTreeSet<u32>,
}

impl Model {
    pub fn of(sample: &Sample) -> Model {
        let layout = &sample.layout;
        let g = layout.geometry;
        let minis = g.gather(&sample.image, &layout.mini_stream);
        let mut rows: Vec<Row> = Vec::with_capacity(layout.nodes.len());
        for node in &layout.nodes {
            let mut path = if node.entry == 0 { Vec::new() } else { rows[node.parent].path.clone() };
            if node.entry != 0 {
                path.push(node.name.clone());
            }
            let key = key(&path);
            let red = sample.image[layout.entry(node.entry) + COLOUR] == 0;
            rows.push(Row { path, key, entry: node.entry, red, bytes: first_bytes(g, &sample.image, &minis, node) });
        }
        let system = [&layout.fat, &layout.difat, &layout.directory, &layout.mini_fat, &layout.mini_stream];
        let fixed = system.into_iter().map(|part| part.len() as u64).sum();
        let blanks = layout.blanks.iter().copied().collect();
        Model { geometry: g, rows, sectors: layout.sectors as u64, minis: layout.minis as u64, fixed, blanks }
    }

    /// What the call hands back, on an image that is valid.
    pub fn perform(&mut self, call: &Call, work_len: usize) -> Outcome {
        let mut out = call.out().to_vec();
        let too_short = call.has_work() && work_len < 13 * self.bytes() / 512;
        let result = if too_short { Err(2) } else { self.done(call, &mut out) };
        Outcome::of(result, out)
    }

    fn done(&mut self, call: &Call, out: &mut [u8]) -> Result<[u64; 3], u32> {
        match call {
            Call::Validate => Ok([0; 3]),
            Call::Find { path } => self.meant(path).map(|row| self.found(row)),
            Call::Read { path, offset, .. } => rest_of(self.stream(path)?, *offset, out),
            Call::List { .. } => {
                let text = self.listing();
                if text.len() > out.len() { Err(27) } else { Ok([put(out, &text), 0, 0]) }
            }
            Call::Overwrite { path, offset, bytes } => self.overwrite(path, *offset, bytes),
            Call::SetLength { path, length } => self.set_length(path, *length),
            Call::CreateStream { path } => self.create(path, Some(Vec::new())),
            Call::CreateStorage { path } => self.create(path, None),
            Call::Remove { path } => self.remove(path),
            Call::Format(asked) => self.format(asked),
            Call::Repair { .. } => self.repair(out),
            Call::ReadAt { entry, position, .. } => rest_of(self.stream_at(*entry).ok_or(33u32)?, *position, out),
            Call::PulseSummary { path } => self.summary(path),
            Call::PulseRecord { path, number } => self.record(path, *number),
            Call::PulseAdd { path, pulse } => self.add_pulse(path, *pulse),
        }
    }

    /// The row that a path means.
    pub fn meant(&self, path: &[u16]) -> Result<usize, u32> {
        self.at(&self.names(path)?)
    }

    /// The names of a path that is well formed.
    fn names<'a>(&self, path: &'a [u16]) -> Result<Vec<&'a [u16]>, u32> {
        let names: Vec<&[u16]> =
            if path.is_empty() { Vec::new() } else { path.split(|&unit| unit == b'/' as u16).collect() };
        let bad = |name: &&[u16]| !(1..=31).contains(&name.len()) || name.iter().any(|&unit| names::refused(unit));
        if names.iter().any(bad) { Err(20) } else { Ok(names) }
    }

    /// The row of these names. Of those that fail the first one decides.
    fn at(&self, names: &[&[u16]]) -> Result<usize, u32> {
        let key = key(names);
        for count in 1..=key.len() {
            let row = self.row(&key[..count]).ok_or(21u32)?;
            if count < key.len() && self.rows[row].bytes.is_some() {
                return Err(22);
            }
        }
        Ok(self.row(&key).expect("every name was found"))
    }

    fn row(&self, key: &[(usize, Vec<u16>)]) -> Option<usize> {
        self.rows.iter().position(|row| row.key == key)
    }

    /// The bytes of the stream that a path means.
    fn stream(&self, path: &[u16]) -> Result<&Vec<u8>, u32> {
        self.rows[self.meant(path)?].bytes.as_ref().ok_or(23)
    }

    /// The bytes of the stream in an entry; None if no row is there, or that of a storage or the root.
    pub fn stream_at(&self, entry: u32) -> Option<&Vec<u8>> {
        self.rows.iter().find(|row| row.entry == entry)?.bytes.as_ref()
    }

    /// How many entries there are: each holds a row or is blank.
    pub fn entries(&self) -> u32 {
        (self.rows.len() + self.blanks.len()) as u32
    }

    fn found(&self, row: usize) -> [u64; 3] {
        let (entry, path) = (self.rows[row].entry as u64, &self.rows[row].path);
        match &self.rows[row].bytes {
            Some(bytes) => [entry, 2, bytes.len() as u64],
            None if path.is_empty() => [entry, 5, self.minis * MINI_SECTOR],
            None => [entry, 1, 0],
        }
    }
}

/// Names as they are compared.
fn key<T: AsRef<[u16]>>(names: &[T]) -> Vec<(usize, Vec<u16>)> {
    names.iter().map(|name| names::key(name.as_ref())).collect()
}

/// Puts what is left of a row's bytes into the out buffer, as far as there is room.
fn rest_of(bytes: &[u8], from: u64, out: &mut [u8]) -> Result<[u64; 3], u32> {
    let rest = bytes.get(usize::try_from(from).unwrap_or(usize::MAX)..).ok_or(24u32)?;
    Ok([put(out, &rest[..rest.len().min(out.len())]), 0, 0])
}

/// Puts bytes at the front of the out buffer, and counts them.
fn put(out: &mut [u8], bytes: &[u8]) -> u64 {
    out[..bytes.len()].copy_from_slice(bytes);
    bytes.len() as u64
}

/// The first size bytes of a stream's sectors or mini sectors, laid end to end.
fn first_bytes(g: Geometry, image: &[u8], minis: &[u8], node: &Node) -> Option<Vec<u8>> {
    let size = node.size? as usize;
    let mut bytes = match is_large(node) {
        true => g.gather(image, &node.units),
        false => node.units.iter().flat_map(|&m| &minis[m as usize * 64..][..64]).copied().collect(),
    };
    bytes.truncate(size);
    Some(bytes)
}
