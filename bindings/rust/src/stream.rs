//! A stream of a volume, for `std::io`.

#![forbid(unsafe_code)]

use std::fmt;
use std::io::{self, Read, Seek, SeekFrom};

use crate::opened::Shared;
use crate::seek::sought;
use crate::{Kind, Refusal};

/// A stream of a volume with a position to read from, at first its start. It borrows the volume, so the stream's bytes and
/// length stay as they are meanwhile.
///
/// Every read goes along the stream from its start to the position: for many small reads, put a
/// [`BufReader`](std::io::BufReader) around it.
pub struct Stream<'v> {
    volume: Shared<'v>,
    path: Vec<u16>,
    size: u64,
    position: u64,
}

impl<'v> Stream<'v> {
    pub(crate) fn of(volume: Shared<'v>, path: &[u16]) -> Result<Stream<'v>, Refusal> {
        let entry = volume.find(path)?;
        match entry.kind {
            Kind::Stream => Ok(Stream { volume, path: path.to_vec(), size: entry.size, position: 0 }),
            Kind::Storage | Kind::Root => Err(Refusal::NotAStream),
        }
    }

    /// Its length in bytes.
    pub fn size(&self) -> u64 {
        self.size
    }
}

/// At the stream's end, and behind it, a read gives 0 bytes.
impl Read for Stream<'_> {
    fn read(&mut self, out: &mut [u8]) -> io::Result<usize> {
        if self.position >= self.size {
            return Ok(0);
        }
        let count = self.volume.read(&self.path, self.position, out)?;
        self.position += count as u64;
        Ok(count)
    }
}

/// The position may be behind the stream's end. One before its start is an error
/// ([`InvalidInput`](io::ErrorKind::InvalidInput)), as is one above [`u64::MAX`]: then it stays as it was.
impl Seek for Stream<'_> {
    fn seek(&mut self, to: SeekFrom) -> io::Result<u64> {
        self.position = sought(to, self.position, self.size)?;
        Ok(self.position)
    }
}

impl fmt::Debug for Stream<'_> {
    fn fmt(&self, f: &mut fmt::Formatter<'_>) -> fmt::Result {
        f.debug_struct("Stream")
            .field("path", &String::from_utf16_lossy(&self.path))
            .field("size", &self.size)
            .field("position", &self.position)
            .finish_non_exhaustive()
    }
}
