//! A cursor in a stream of a view, for `std::io`.

#![forbid(unsafe_code)]

use std::fmt;
use std::io::{self, Read, Seek, SeekFrom};

use crate::seek::sought;
use crate::{Entry, View};

/// A place in a stream of a view: an entry and a position. [`View::cursor`] makes one.
///
/// Each read is a [`read_at`](crate::read_at) there, which validates the whole image: for many small reads, put a
/// [`BufReader`](std::io::BufReader) around the cursor, or read a [`Stream`](crate::Stream) of a volume that is opened once.
///
/// ```
/// use gyomrelas::{path, work_need, View};
/// use std::io::{Read, Seek, SeekFrom};
///
/// let image = std::fs::read("../../samples/site.cfb")?;
/// let mut work = vec![0; work_need(image.len())];
/// let view = View::open(&image);
/// let jets = view.find(&mut work, &path("Site/Jets"))?;
///
/// let mut cursor = view.cursor(&mut work, jets);
/// let mut line = [0; 13];
/// assert_eq!(cursor.read(&mut line)?, 13);
/// assert_eq!(&line, b"jet 12 opens\n");
/// assert_eq!(cursor.position(), 13);
/// assert_eq!(cursor.seek(SeekFrom::End(-5))?, 65);
/// assert_eq!(cursor.read(&mut line)?, 5);
/// assert_eq!(cursor.read(&mut line)?, 0);
/// # Ok::<(), Box<dyn std::error::Error>>(())
/// ```
pub struct Cursor<'a> {
    view: View<'a>,
    work: &'a mut [u32],
    entry: Entry,
    position: u64,
}

impl<'a> Cursor<'a> {
    pub(crate) fn new(view: View<'a>, work: &'a mut [u32], entry: Entry) -> Cursor<'a> {
        Cursor { view, work, entry, position: 0 }
    }

    /// The entry that it was made with.
    pub fn entry(&self) -> Entry {
        self.entry
    }

    /// Where the next read begins.
    pub fn position(&self) -> u64 {
        self.position
    }
}

/// A read hands over the next bytes, and moves the cursor by their number. At the stream's end it gives 0 bytes. A refusal is an
/// error, and leaves the cursor where it was: those of [`validate`](crate::validate); 33, where the entry is no stream; then 24,
/// where the cursor is behind the stream's end.
impl Read for Cursor<'_> {
    fn read(&mut self, out: &mut [u8]) -> io::Result<usize> {
        let count = self.view.read_at(self.work, self.entry.number, self.position, out)?;
        self.position += count as u64;
        Ok(count)
    }
}

/// The end is by the size of the entry that the cursor was made with. The position may be behind it. One before the stream's
/// start is an error ([`InvalidInput`](io::ErrorKind::InvalidInput)), as is one above [`u64::MAX`]: then it stays as it was.
impl Seek for Cursor<'_> {
    fn seek(&mut self, to: SeekFrom) -> io::Result<u64> {
        self.position = sought(to, self.position, self.entry.size)?;
        Ok(self.position)
    }
}

impl fmt::Debug for Cursor<'_> {
    fn fmt(&self, f: &mut fmt::Formatter<'_>) -> fmt::Result {
        f.debug_struct("Cursor").field("entry", &self.entry).field("position", &self.position).finish_non_exhaustive()
    }
}
