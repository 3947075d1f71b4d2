//! The first broken rule of a file.

use super::finding::Finding;
use super::rules::*;
use super::volume::Volume;

/// Where the file breaks a rule: the first group in the order 10 to 18 that does not hold, or 1 for its length. None
/// where it breaks none. It answers as the library does, for any bytes.
pub fn explain(bytes: &[u8]) -> Option<Finding> {
    length::check(bytes).and_then(|()| groups(&Volume::of(bytes))).err()
}

fn groups(volume: &Volume) -> Result<(), Finding> {
    header::check(volume)?;
    tables::check(volume)?;
    cells::check(volume)?;
    directory::check(volume)?;
    fields::check(volume)?;
    trees::check(volume)?;
    mini::check(volume)?;
    streams::check(volume)?;
    owners::check(volume)
}
