//! Group 13: the directory's chain, and the count of its sectors.

use super::chain::{Due, sectors};
use crate::reader::finding::Finding;
use crate::reader::header::{DIRECTORY_COUNT, FIRST_DIRECTORY};
use crate::reader::volume::Volume;

pub fn check(volume: &Volume) -> Result<(), Finding> {
    let due = Due {
        group: 13,
        what: "the directory's chain",
        start: volume.header.first_directory,
        start_place: FIRST_DIRECTORY,
        count: None,
    };
    due.check(volume, &sectors(volume))?;
    let (said, has) = (volume.header.directory_count, volume.directory.len());
    if !volume.image.geometry.counts_directory || said as usize == has {
        return Ok(());
    }
    let text = format!("the header counts {said} directory sectors; the directory's chain has {has}");
    Err(Finding::new(13, text).at(&volume.image, DIRECTORY_COUNT))
}
