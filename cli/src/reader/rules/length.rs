//! Which lengths a file may have (answer 1).

use crate::reader::finding::Finding;
use crate::reader::geometry::{GREATEST, Geometry, V3, V4, major};

/// The version is looked at only where version 3 allows the length.
pub fn check(bytes: &[u8]) -> Result<(), Finding> {
    check_for(V3, bytes.len())?;
    if major(bytes) == V4.major { check_for(V4, bytes.len()) } else { Ok(()) }
}

fn check_for(version: Geometry, length: usize) -> Result<(), Finding> {
    let (sector, major) = (version.sector, version.major);
    let text = if length < version.least() {
        format!(
            "the file has {length} bytes; version {major} needs a header and two sectors, {} bytes",
            version.least()
        )
    } else if length > GREATEST {
        format!("the file has {length} bytes; more than {GREATEST} are not taken")
    } else if !version.allows(length) {
        let (whole, over) = (length / sector, length % sector);
        format!(
            "the file has {length} bytes: {whole} sectors of {sector} bytes and {over} bytes over, not whole sectors"
        )
    } else {
        return Ok(());
    };
    Err(Finding::new(1, text))
}
