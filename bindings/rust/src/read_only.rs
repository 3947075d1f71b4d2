//! An image opened for queries alone.

#![forbid(unsafe_code)]

use std::fmt;

use crate::opened::OpenVolume;
use crate::{Entry, Objects, Refusal, Stream};

/// A [`Volume`](crate::Volume) over an image that is borrowed shared: everything but edits. Others can read the image
/// meanwhile, and nobody can change it. What is said there of the work buffer holds here too.
///
/// ```
/// use gyomrelas::{path, work_need, Kind, ReadOnlyVolume};
///
/// let image = std::fs::read("../../samples/site.cfb")?;
/// let mut work = vec![0; work_need(image.len())];
/// let volume = ReadOnlyVolume::open(&image, &mut work)?;
/// assert_eq!(volume.find(&path("Site"))?.kind, Kind::Storage);
/// let mut start = [0; 6];
/// assert_eq!(volume.read(&path("Site/Jets"), 0, &mut start)?, 6);
/// assert_eq!(&start, b"jet 12");
/// # Ok::<(), Box<dyn std::error::Error>>(())
/// ```
pub struct ReadOnlyVolume<'a>(OpenVolume<'a, &'a [u8]>);

impl<'a> ReadOnlyVolume<'a> {
    /// Validates an image and opens it.
    ///
    /// Refusals: those of [`validate`](crate::validate), and the work buffer is then as it leaves it. No other call of a
    /// volume has them.
    pub fn open(image: &'a [u8], work: &'a mut [u32]) -> Result<ReadOnlyVolume<'a>, Refusal> {
        OpenVolume::open_shared(image, work).map(ReadOnlyVolume)
    }

    /// Closes the volume, as dropping it does.
    pub fn close(self) {
        drop(self);
    }

    /// The image.
    pub fn image(&self) -> &[u8] {
        self.0.image()
    }

    /// The entry that a path leads to, as by [`find`](crate::find).
    ///
    /// Refusals: 20, 21 and 22.
    pub fn find(&self, path: &[u16]) -> Result<Entry, Refusal> {
        self.0.shared().find(path)
    }

    /// Copies the bytes of a stream from an offset on to the out buffer, as [`read`](crate::read) does, and gives their
    /// number.
    ///
    /// Refusals: 20 to 24.
    pub fn read(&self, path: &[u16], offset: u64, out: &mut [u8]) -> Result<usize, Refusal> {
        self.0.shared().read(path, offset, out)
    }

    /// Copies bytes of the stream that has an entry number from a position on, as [`read_at`](crate::read_at) does, and gives
    /// their number.
    ///
    /// Refusals: 33, then 24.
    pub fn read_at(&self, entry: u32, position: u64, out: &mut [u8]) -> Result<usize, Refusal> {
        self.0.shared().read_at(entry, position, out)
    }

    /// Writes a listing to the out buffer, as [`list`](crate::list) does, and gives its length. The walk over the objects
    /// needs the work buffer, hence `&mut self`.
    ///
    /// Refusals: 27.
    pub fn list(&mut self, out: &mut [u8]) -> Result<usize, Refusal> {
        self.0.list(out)
    }

    /// All streams and storages, in the order of the listing. They do not borrow the volume.
    ///
    /// Refusals: 27, where the listing is longer than [`Objects::MOST`].
    pub fn objects(&mut self) -> Result<Objects, Refusal> {
        self.objects_within(Objects::MOST)
    }

    /// The same with another bound on the listing's length in bytes, which is the memory that may be needed.
    ///
    /// Refusals: 27, where the listing is longer.
    pub fn objects_within(&mut self, most: usize) -> Result<Objects, Refusal> {
        Objects::listed(most, |out| self.list(out))
    }

    /// A stream to read from by [`std::io::Read`] and [`std::io::Seek`].
    ///
    /// Refusals: 20 to 23.
    pub fn stream(&self, path: &[u16]) -> Result<Stream<'_>, Refusal> {
        Stream::of(self.0.shared(), path)
    }
}

impl fmt::Debug for ReadOnlyVolume<'_> {
    fn fmt(&self, f: &mut fmt::Formatter<'_>) -> fmt::Result {
        f.debug_struct("ReadOnlyVolume").field("image_len", &self.image().len()).finish_non_exhaustive()
    }
}
