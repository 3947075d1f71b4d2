//! All that is wrong with a file, as far as it can be told: the first finding of each group, and one of each stream.

use super::finding::Finding;
use super::rules::*;
use super::volume::Volume;

/// So many streams are looked into; a broken chain is followed once more for each.
const MOST_STREAMS: usize = 20;

/// The findings, and how many streams more have a wrong chain. Where an early group does not hold, what is said of
/// later ones may only follow from it.
pub fn findings(bytes: &[u8], volume: &Volume) -> (Vec<Finding>, usize) {
    let groups = [
        length::check(bytes),
        header::check(volume),
        tables::check(volume),
        cells::check(volume),
        directory::check(volume),
        fields::check(volume),
        trees::check(volume),
        mini::check(volume),
    ];
    let mut found: Vec<Finding> = groups.into_iter().filter_map(Result::err).collect();
    let wrong: Vec<_> = volume.streams().filter(|stream| !streams::holds(volume, stream)).collect();
    let streams = wrong.iter().take(MOST_STREAMS).filter_map(|stream| streams::check_stream(volume, stream).err());
    found.extend(streams);
    (found, wrong.len().saturating_sub(MOST_STREAMS))
}
