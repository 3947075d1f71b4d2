//! Reading: as many bytes as the out buffer and the rest of the stream allow.

use super::find::find_stream;
use super::stream::Stream;
use crate::volume::Volume;
use crate::volume::entry::STREAM;

pub fn read(volume: &Volume, path: &[u16], offset: u64, out: &mut [u8]) -> Result<u64, u32> {
    let found = find_stream(volume, path)?;
    copied(volume, found.entry, offset, out)
}

/// Of the stream with an entry number (W-212). Blank entries, storages and the root are none, and there is none past the directory.
pub fn read_at(volume: &Volume, entry: u32, position: u64, out: &mut [u8]) -> Result<u64, u32> {
    let entry = entry as usize;
    let is_stream = entry < volume.directory.count() && volume.directory.entry(entry).kind() == STREAM;
    if is_stream { copied(volume, entry, position, out) } else { Err(33) }
}

fn copied(volume: &Volume, entry: usize, from: u64, out: &mut [u8]) -> Result<u64, u32> {
    let stream = Stream::of(volume, entry);
    if from > stream.size {
        return Err(24);
    }
    let count = (stream.size - from).min(out.len() as u64);
    out[..count as usize].copy_from_slice(&stream.bytes(volume.image, from, from + count));
    Ok(count)
}
