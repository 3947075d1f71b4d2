//! An image opened for edits.

#![forbid(unsafe_code)]

use std::fmt;

use crate::opened::OpenVolume;
use crate::{Entry, Objects, Refusal, Stream};

/// An image that is validated once, and then open for any number of calls. Each gives what this crate's function of the
/// same name gives, and leaves the same image.
///
/// For as long as it lives, a volume has the image and the work buffer to itself: nobody else can change what it has
/// validated. [`Volume::image`] shows the image meanwhile. It is closed when it is dropped, or by [`Volume::close`]: then
/// the first [`work_need`](crate::work_need) numbers of the work buffer are zero, and the rest is as it was. A volume that
/// is leaked (by [`std::mem::forget`], say) is not closed, which does no harm: the work buffer just keeps some numbers, and
/// may be used again. The image needs no closing: it is valid after every call.
///
/// ```
/// use gyomrelas::{path, validate, work_need, Volume};
/// use std::io::Read;
///
/// let mut image = std::fs::read("../../samples/site.cfb")?;
/// let mut work = vec![0; work_need(image.len())];
/// let log = path("Site/log");
///
/// let mut volume = Volume::open(&mut image, &mut work)?;
/// let size = volume.find(&log)?.size;
/// volume.set_len(&log, size + 4)?;
/// volume.overwrite(&log, size, b"end\n")?;
///
/// let mut text = String::new();
/// volume.stream(&log)?.read_to_string(&mut text)?;
/// assert!(text.ends_with("line 7 of the site's log\nend\n"));
///
/// for object in volume.objects()? {
///     println!("{:?} {} {}", object.kind, object.size, String::from_utf16_lossy(&object.path));
/// }
/// volume.close();
/// assert_eq!(validate(&image, &mut work), Ok(()));
/// # Ok::<(), Box<dyn std::error::Error>>(())
/// ```
///
/// While it is open nothing else may write to the image:
///
/// ```compile_fail,E0499
/// # let mut image = std::fs::read("../../samples/site.cfb").expect("the sample is there");
/// # let mut work = vec![0; gyomrelas::work_need(image.len())];
/// let volume = gyomrelas::Volume::open(&mut image, &mut work)?;
/// image[0] = 1;
/// volume.find(&[])?;
/// # Ok::<(), gyomrelas::Refusal>(())
/// ```
pub struct Volume<'a>(OpenVolume<'a, &'a mut [u8]>);

impl<'a> Volume<'a> {
    /// Validates an image and opens it.
    ///
    /// Refusals: those of [`validate`](crate::validate), and the work buffer is then as it leaves it. No other call of a
    /// volume has them.
    pub fn open(image: &'a mut [u8], work: &'a mut [u32]) -> Result<Volume<'a>, Refusal> {
        OpenVolume::open_exclusive(image, work).map(Volume)
    }

    /// Closes the volume, as dropping it does.
    pub fn close(self) {
        drop(self);
    }

    /// The image as it is now.
    pub fn image(&self) -> &[u8] {
        self.0.image()
    }

    /// The entry that a path leads to, as by [`find`](crate::find).
    ///
    /// Refusals: 20, 21 and 22.
    pub fn find(&self, path: &[u16]) -> Result<Entry, Refusal> {
        self.0.shared().find(path)
    }

    /// Copies the bytes of a stream from an offset on to the out buffer, as [`read`](crate::read) does, and gives their
    /// number.
    ///
    /// Refusals: 20 to 24.
    pub fn read(&self, path: &[u16], offset: u64, out: &mut [u8]) -> Result<usize, Refusal> {
        self.0.shared().read(path, offset, out)
    }

    /// Copies bytes of the stream that has an entry number from a position on, as [`read_at`](crate::read_at) does, and gives
    /// their number.
    ///
    /// Refusals: 33, then 24.
    pub fn read_at(&self, entry: u32, position: u64, out: &mut [u8]) -> Result<usize, Refusal> {
        self.0.shared().read_at(entry, position, out)
    }

    /// Puts bytes into a stream from an offset on, as [`overwrite`](crate::overwrite) does.
    ///
    /// Refusals: 20 to 24.
    pub fn overwrite(&mut self, path: &[u16], offset: u64, bytes: &[u8]) -> Result<(), Refusal> {
        self.0.overwrite(path, offset, bytes)
    }

    /// Gives a stream another length, as [`set_len`](crate::set_len) does.
    ///
    /// Refusals: 20 to 23, and 26.
    pub fn set_len(&mut self, path: &[u16], new_len: u64) -> Result<(), Refusal> {
        self.0.set_len(path, new_len)
    }

    /// Creates a stream of no bytes, as [`create_stream`](crate::create_stream) does.
    ///
    /// Refusals: 20, 21, 22, 29 and 30.
    pub fn create_stream(&mut self, path: &[u16]) -> Result<(), Refusal> {
        self.0.create_stream(path)
    }

    /// Creates a storage with nothing in it, as [`create_storage`](crate::create_storage) does.
    ///
    /// Refusals: 20, 21, 22, 29 and 30.
    pub fn create_storage(&mut self, path: &[u16]) -> Result<(), Refusal> {
        self.0.create_storage(path)
    }

    /// Removes a stream, or a storage with nothing in it, as [`remove`](crate::remove) does.
    ///
    /// Refusals: 20, 21, 22, 28 and 31.
    pub fn remove(&mut self, path: &[u16]) -> Result<(), Refusal> {
        self.0.remove(path)
    }

    /// Writes a listing to the out buffer, as [`list`](crate::list) does, and gives its length. The walk over the objects
    /// needs the work buffer, hence `&mut self`; the image stays as it is.
    ///
    /// Refusals: 27.
    pub fn list(&mut self, out: &mut [u8]) -> Result<usize, Refusal> {
        self.0.list(out)
    }

    /// All streams and storages, in the order of the listing. They do not borrow the volume: calls can be made on each as
    /// it comes.
    ///
    /// Refusals: 27, where the listing is longer than [`Objects::MOST`].
    pub fn objects(&mut self) -> Result<Objects, Refusal> {
        self.objects_within(Objects::MOST)
    }

    /// The same with another bound on the listing's length in bytes, which is the memory that may be needed.
    ///
    /// Refusals: 27, where the listing is longer.
    pub fn objects_within(&mut self, most: usize) -> Result<Objects, Refusal> {
        Objects::listed(most, |out| self.list(out))
    }

    /// A stream to read from by [`std::io::Read`] and [`std::io::Seek`]. While it is there, nothing is edited.
    ///
    /// Refusals: 20 to 23.
    pub fn stream(&self, path: &[u16]) -> Result<Stream<'_>, Refusal> {
        Stream::of(self.0.shared(), path)
    }
}

impl fmt::Debug for Volume<'_> {
    fn fmt(&self, f: &mut fmt::Formatter<'_>) -> fmt::Result {
        f.debug_struct("Volume").field("image_len", &self.image().len()).finish_non_exhaustive()
    }
}
