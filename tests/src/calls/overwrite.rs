//! Overwriting: the stream's bytes from an offset on, and nothing else.

use super::find::find_stream;
use super::patch::{Patch, stream_bytes};
use super::stream::Stream;
use crate::volume::Volume;

pub fn overwrite(volume: &Volume, path: &[u16], offset: u64, bytes: &[u8]) -> Result<Vec<Patch>, u32> {
    let found = find_stream(volume, path)?;
    // The true sum does not always fit in 64 bits.
    if offset as u128 + bytes.len() as u128 > found.size as u128 {
        return Err(24);
    }
    Ok(stream_bytes(&Stream::of(volume, found.entry), offset, bytes))
}
