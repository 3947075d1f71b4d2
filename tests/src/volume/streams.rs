//! Group 17: each stream has a chain of exactly the length that its size needs.

use super::chains::Chains;
use super::directory::Directory;
use super::entry::{Entry, STREAM};
use crate::geometry::Geometry;
use crate::number::*;

pub fn hold(g: Geometry, directory: &Directory, sectors: &Chains, minis: &Chains) -> bool {
    directory.entries().filter(|entry| entry.kind() == STREAM).all(|stream| chained(g, &stream, sectors, minis))
}

fn chained(g: Geometry, stream: &Entry, sectors: &Chains, minis: &Chains) -> bool {
    let (start, size) = (stream.start(), stream.size());
    if size == 0 {
        start == END
    } else if size < CUTOFF {
        minis.is_chain(start, size.div_ceil(MINI_SECTOR))
    } else {
        sectors.is_chain(start, size.div_ceil(g.sector as u64))
    }
}
