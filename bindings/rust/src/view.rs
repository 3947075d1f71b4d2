//! An image that is looked at, without validating it first.

#![forbid(unsafe_code)]

use std::fmt;

use crate::{Cursor, Entry, Refusal};

/// An image that is shown, for as long as the view lives. Opening it validates nothing and never fails: every call of it
/// validates the image, and gives what this crate's function of the same name gives for that image, refusals included. A
/// [`ReadOnlyVolume`](crate::ReadOnlyVolume) validates once instead, when it is opened.
///
/// The image is borrowed shared, so nobody can change it meanwhile, and the view can be copied. A work buffer is lent to
/// each call.
///
/// ```
/// use gyomrelas::{path, work_need, Refusal, View};
///
/// let image = std::fs::read("../../samples/site.cfb").expect("the sample is there");
/// let mut work = vec![0; work_need(image.len())];
/// let view = View::open(&image);
/// assert_eq!(view.find(&mut work, &path("Site/log"))?.size, 5000);
/// assert_eq!(View::open(&image[..512]).find(&mut work, &path("Site/log")), Err(Refusal::BadLength));
/// # Ok::<(), Refusal>(())
/// ```
///
/// ```compile_fail,E0502
/// # let mut image = std::fs::read("../../samples/site.cfb").expect("the sample is there");
/// # let mut work = vec![0; gyomrelas::work_need(image.len())];
/// let view = gyomrelas::View::open(&image);
/// image[0] = 1;
/// view.find(&mut work, &[])?;
/// # Ok::<(), gyomrelas::Refusal>(())
/// ```
#[derive(Clone, Copy)]
pub struct View<'a> {
    image: &'a [u8],
}

impl<'a> View<'a> {
    /// Opens a view on any bytes.
    pub const fn open(image: &'a [u8]) -> View<'a> {
        View { image }
    }

    /// The image.
    pub const fn image(self) -> &'a [u8] {
        self.image
    }

    /// The entry that a path leads to, as by [`find`](crate::find).
    ///
    /// Refusals: those of [`validate`](crate::validate), and 20, 21 and 22.
    pub fn find(self, work: &mut [u32], path: &[u16]) -> Result<Entry, Refusal> {
        crate::find(self.image, work, path)
    }

    /// Copies the bytes of a stream from an offset on to the out buffer, as [`read`](crate::read) does, and gives their
    /// number.
    ///
    /// Refusals: those of [`validate`](crate::validate), and 20 to 24.
    pub fn read(self, work: &mut [u32], path: &[u16], offset: u64, out: &mut [u8]) -> Result<usize, Refusal> {
        crate::read(self.image, work, path, offset, out)
    }

    /// Copies bytes of the stream that has an entry number from a position on, as [`read_at`](crate::read_at) does, and gives
    /// their number.
    ///
    /// Refusals: those of [`validate`](crate::validate); 33, then 24.
    pub fn read_at(self, work: &mut [u32], entry: u32, position: u64, out: &mut [u8]) -> Result<usize, Refusal> {
        crate::read_at(self.image, work, entry, position, out)
    }

    /// A cursor at the start of an entry's stream, which is lent the work buffer. The entry is not looked at: where it is no
    /// stream of the image, the cursor's reads are refused.
    pub fn cursor(self, work: &'a mut [u32], entry: Entry) -> Cursor<'a> {
        Cursor::new(self, work, entry)
    }
}

impl fmt::Debug for View<'_> {
    fn fmt(&self, f: &mut fmt::Formatter<'_>) -> fmt::Result {
        f.debug_struct("View").field("image_len", &self.image.len()).finish_non_exhaustive()
    }
}
