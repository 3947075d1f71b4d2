//! Group 17: each stream's chain has exactly the units that its size needs.

use super::chain::{Due, minis, sectors};
use crate::reader::chains::Chains;
use crate::reader::entry::{Entry, START};
use crate::reader::finding::Finding;
use crate::reader::number::*;
use crate::reader::volume::Volume;

pub fn check(volume: &Volume) -> Result<(), Finding> {
    volume.streams().try_for_each(|stream| check_stream(volume, &stream))
}

/// Whether one stream's chain is right.
pub fn holds(volume: &Volume, stream: &Entry) -> bool {
    let (chains, units) = need(volume, stream);
    chains.is_chain(stream.start(), units)
}

/// The units that a stream's chain is made of, and how many it needs.
fn need<'a>(volume: &'a Volume, stream: &Entry) -> (&'a Chains, u64) {
    match stream.size() {
        size @ ..CUTOFF => (&volume.mini.chains, size.div_ceil(MINI_SECTOR)),
        size => (&volume.sectors, size.div_ceil(volume.image.geometry.sector as u64)),
    }
}

/// One stream.
pub fn check_stream(volume: &Volume, stream: &Entry) -> Result<(), Finding> {
    let why = format!("the stream's size is {}", counted(stream.size(), "byte"));
    let due = Due {
        group: 17,
        what: "the stream's chain",
        start: stream.start(),
        start_place: stream.place + START,
        count: Some((need(volume, stream).1, &why)),
    };
    let space = if stream.size() < CUTOFF { minis(volume) } else { sectors(volume) };
    due.check(volume, &space).map_err(|finding| finding.about(stream))
}
