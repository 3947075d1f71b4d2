//! What an edit changes: bytes at places of the image. A refused edit has none.

use super::stream::Stream;
use crate::geometry::Geometry;
use crate::volume::Volume;
use std::ops::Range;

pub struct Patch {
    pub at: usize,
    pub bytes: Vec<u8>,
}

pub fn apply(image: &mut [u8], patches: &[Patch]) {
    for patch in patches {
        image[patch.at..patch.at + patch.bytes.len()].copy_from_slice(&patch.bytes);
    }
}

/// A cell of the table that lies in these sectors.
pub fn cell(g: Geometry, table: &[u32], unit: u32, value: u32) -> Patch {
    Patch { at: g.cell(table, unit), bytes: value.to_le_bytes().to_vec() }
}

/// A field of an entry, by its place in it.
pub fn field(volume: &Volume, entry: usize, at: usize, bytes: &[u8]) -> Patch {
    let place = volume.geometry.entry(&volume.directory.sectors, entry as u32);
    Patch { at: place + at, bytes: bytes.to_vec() }
}

/// Bytes of a stream's chain, from an offset on.
pub fn stream_bytes(stream: &Stream, offset: u64, bytes: &[u8]) -> Vec<Patch> {
    let mut rest = bytes;
    let pieces = stream.pieces(offset, offset + bytes.len() as u64);
    let patch = |piece: Range<usize>| {
        let (part, behind) = rest.split_at(piece.len());
        rest = behind;
        Patch { at: piece.start, bytes: part.to_vec() }
    };
    pieces.map(patch).collect()
}
