//! Compound files (MS-CFB, versions 3 and 4), by a library in which every function is proved.
//!
//! An image is a whole file in memory. Its header names its version, and every call goes by it: a version 3 image is cut
//! into sectors of 512 bytes and has 1,536 bytes at least, a version 4 image into sectors of 4,096 bytes and has 12,288 at
//! least. Its length is a multiple of its sectors' and at most 67,108,864. The caller lends it, with a work buffer of at
//! least [`work_need`] numbers, which may hold anything and may be used again.
//!
//! A path is a slice of UTF-16 units, with names parted by `/` and none at either end; the empty path is the root.
//! [`path()`] makes one. Small and capital letters are the same: a to z, U+00E0 to U+00FF but U+00F7, U+03B1 to U+03C9 but
//! U+03C2, U+0430 to U+045F, and their capitals. No other units are.
//!
//! Every call but [`format()`] and [`repair`] validates the whole image first, and refuses it as [`validate`] does. Only
//! [`overwrite`], [`set_len`], [`create_stream`], [`create_storage`], [`remove`], [`format()`], [`repair`] and [`pulse::add`]
//! change it. After a refusal the image and an out buffer are as they were. The work buffer is as it was after
//! [`Refusal::BadLength`] and [`Refusal::ShortWork`]; else its first [`work_need`] numbers are zero, and the rest is as it was.
//!
//! ```
//! use gyomrelas::{find, path, work_need, Kind, Refusal};
//!
//! let image = std::fs::read("../../samples/site.cfb").expect("the sample is there");
//! let mut work = vec![0; work_need(image.len())];
//! let log = find(&image, &mut work, &path("Site/log"))?;
//! assert_eq!((log.kind, log.size), (Kind::Stream, 5000));
//! assert_eq!(find(&image, &mut work, &path("Site/logs")), Err(Refusal::NotFound));
//! # Ok::<(), Refusal>(())
//! ```
//!
//! For many calls on one image, open it once: a [`Volume`] has the same calls, and validates when it is opened. A
//! [`ReadOnlyVolume`] does so with an image that is not to be changed. A [`View`] holds an image and validates nothing when it is
//! opened; a [`Cursor`] pages through one of its streams.
//!
//! The module [`pulse`] has calls on streams that keep pulses of valves, and add them up.

#![deny(unsafe_code, missing_docs)]

mod answers;
mod calls;
mod cursor;
mod entry;
mod objects;
mod opened;
mod plan;
pub mod pulse;
mod pulse_calls;
mod read_only;
mod refusal;
mod seek;
mod stream;
mod view;
mod volume;

pub use cursor::Cursor;
pub use entry::{Entry, Kind};
pub use objects::{Object, Objects};
pub use plan::Plan;
pub use read_only::ReadOnlyVolume;
pub use refusal::Refusal;
pub use stream::Stream;
pub use view::View;
pub use volume::Volume;

use answers::{answered, counted, found};

/// How many numbers the work buffer needs for an image of so many bytes, of either version.
pub const fn work_need(image_len: usize) -> usize {
    13 * (image_len / 512)
}

/// The UTF-16 units of a path. Any text may be given; a path that is badly formed is refused by the calls.
pub fn path(text: &str) -> Vec<u16> {
    text.encode_utf16().collect()
}

/// Whether an image keeps every rule. The time is linear in the image's length, whatever its bytes.
///
/// Refusals: 1, 2, and 10 to 18, the first group of rules that the image breaks. Every other call has these too.
pub fn validate(image: &[u8], work: &mut [u32]) -> Result<(), Refusal> {
    answered(calls::validate(image, work))
}

/// The entry that a path leads to.
///
/// Refusals: 20, 21 and 22. Of 21 and 22 the first name that fails decides.
pub fn find(image: &[u8], work: &mut [u32], path: &[u16]) -> Result<Entry, Refusal> {
    found(calls::find(image, work, path))
}

/// Copies the bytes of a stream from an offset on to the out buffer, and gives their number: as many as are left of the
/// stream, and as the buffer holds. The out buffer's bytes behind them stay. An offset equal to the stream's length gives
/// 0 bytes.
///
/// Refusals: 20 to 24.
pub fn read(image: &[u8], work: &mut [u32], path: &[u16], offset: u64, out: &mut [u8]) -> Result<usize, Refusal> {
    counted(calls::read(image, work, path, offset, out))
}

/// Copies bytes of the stream that has an entry number, as [`find`] gives it ([`Entry::number`]), from a position on to the
/// out buffer, and gives their number: as many as are left of the stream, and as the buffer holds. The out buffer's bytes
/// behind them stay. A position equal to the stream's length gives 0 bytes.
///
/// To page through a stream, keep the two numbers and add the count to the position, as a [`Cursor`] does. Read so to its end
/// in any pieces of a byte and more, the stream gives its bytes in order, each once, if the image stays as it is meanwhile.
///
/// Refusals: 33, where the entry is blank, a storage or the root, or the directory has none of that number; then 24.
///
/// ```
/// use gyomrelas::{find, path, read_at, work_need, Refusal};
///
/// let image = std::fs::read("../../samples/site.cfb").expect("the sample is there");
/// let mut work = vec![0; work_need(image.len())];
/// let jets = find(&image, &mut work, &path("Site/Jets"))?;
/// let mut page = [0; 26];
/// assert_eq!(read_at(&image, &mut work, jets.number, 13, &mut page), Ok(26));
/// assert_eq!(&page, b"jet 12 opens\njet 12 opens\n");
/// assert_eq!(read_at(&image, &mut work, jets.number, 71, &mut page), Err(Refusal::Beyond));
/// assert_eq!(read_at(&image, &mut work, 0, 71, &mut page), Err(Refusal::BadEntry));
/// # Ok::<(), Refusal>(())
/// ```
pub fn read_at(image: &[u8], work: &mut [u32], entry: u32, position: u64, out: &mut [u8]) -> Result<usize, Refusal> {
    counted(calls::read_at(image, work, entry, position, out))
}

/// Puts bytes into a stream from an offset on. They have to end within it. Nothing else of the image changes.
///
/// Refusals: 20 to 24.
pub fn overwrite(image: &mut [u8], work: &mut [u32], path: &[u16], offset: u64, bytes: &[u8]) -> Result<(), Refusal> {
    answered(calls::overwrite(image, work, path, offset, bytes))
}

/// Gives a stream another length. A shorter one keeps its first bytes, a longer one has zero bytes behind the old ones.
/// The image's own length stays: what a stream needs is taken from the free sectors in it, and what it no longer needs
/// becomes free. The upper half of the size in the file becomes zero. The same length again changes nothing, also not that
/// half.
///
/// A stream of 4,096 bytes and more lies in sectors, a smaller one in mini sectors of 64 bytes. A length on the other side
/// of that line takes all its units anew, and only free ones of the new kind are room for it, so that a shorter length may
/// be refused for room too.
///
/// Refusals: 20 to 23, and 26.
pub fn set_len(image: &mut [u8], work: &mut [u32], path: &[u16], new_len: u64) -> Result<(), Refusal> {
    answered(calls::set_len(image, work, path, new_len))
}

/// Creates a stream of no bytes. The names before the last lead to the storage that it is put in, or to the root where there
/// is only one name. The last name is kept as it is spelled. The stream gets the directory's lowest blank entry, and takes no
/// sector: the directory itself never grows. All other objects keep their entries.
///
/// Refusals: 20, 21 and 22, of which 21 and 22 are about the names before the last; 29, where the path leads to something
/// already, also in other letters; and 30.
///
/// ```
/// use gyomrelas::{create_storage, create_stream, path, remove, work_need, Refusal};
///
/// let mut image = std::fs::read("../../samples/site4.cfb").expect("the sample is there");
/// let mut work = vec![0; work_need(image.len())];
/// create_storage(&mut image, &mut work, &path("Site/old"))?;
/// create_stream(&mut image, &mut work, &path("Site/old/log"))?;
/// assert_eq!(create_stream(&mut image, &mut work, &path("site/OLD/LOG")), Err(Refusal::AlreadyThere));
/// assert_eq!(remove(&mut image, &mut work, &path("Site/old")), Err(Refusal::NotEmpty));
/// remove(&mut image, &mut work, &path("Site/old/log"))?;
/// remove(&mut image, &mut work, &path("Site/old"))?;
/// # Ok::<(), Refusal>(())
/// ```
pub fn create_stream(image: &mut [u8], work: &mut [u32], path: &[u16]) -> Result<(), Refusal> {
    answered(calls::create_stream(image, work, path))
}

/// Creates a storage with nothing in it, as [`create_stream`] creates a stream.
///
/// Refusals: 20, 21, 22, 29 and 30.
pub fn create_storage(image: &mut [u8], work: &mut [u32], path: &[u16]) -> Result<(), Refusal> {
    answered(calls::create_storage(image, work, path))
}

/// Removes a stream, or a storage with nothing in it. The sectors or mini sectors of a stream become free, and its bytes stay
/// there until another stream takes them. All other objects keep their entries. A name that is created again starts afresh.
///
/// Refusals: 20, 21 and 22; 28 for a storage with something in it; and 31 for the root.
pub fn remove(image: &mut [u8], work: &mut [u32], path: &[u16]) -> Result<(), Refusal> {
    answered(calls::remove(image, work, path))
}

/// Writes a listing of all streams and storages to the out buffer, and gives its length. The out buffer's bytes behind it
/// stay. The listing is ASCII: a line with the number of objects, then a line for each one, a storage before all that is
/// below it.
///
/// ```text
/// objects 3
/// D 0 Site
/// F 5000 Site/log
/// F 70 Site/Jets
/// ```
///
/// Siblings stand in the order of the file's trees: shorter names first. A unit that is no printable ASCII character
/// prints as `\` and four digits of base 16. No name has a `/` or a `\` in it, so the text can be read back. Every stream
/// and every storage stands in it once, and [`find`] gives the type and size of its line.
///
/// Refusals: 27, where the listing is longer than the out buffer. How long it is the call does not say: try a longer one.
pub fn list(image: &[u8], work: &mut [u32], out: &mut [u8]) -> Result<usize, Refusal> {
    counted(calls::list(image, work, out))
}

/// Writes a fresh image over the whole buffer: one with a root and nothing else, in the parts that the plan has. What the
/// buffer held is not looked at, and no work buffer is needed. [`Plan::for_size`] picks a plan.
///
/// Refusals: 1, where the plan's version has no image of the buffer's length (an unknown version has those of version 3), or
/// the length is not that of the plan's sectors; then 32, where the version is unknown, the directory has no sector, the mini
/// FAT has fewer cells than there are mini sectors, or the parts need more sectors than there are.
///
/// ```
/// use gyomrelas::{create_stream, format, path, set_len, work_need, Plan, Refusal};
///
/// let mut image = vec![0; 1 << 20];
/// let plan = Plan::for_size(4, image.len(), 50, 10_000)?;
/// format(&mut image, plan)?;
///
/// let mut work = vec![0; work_need(image.len())];
/// create_stream(&mut image, &mut work, &path("log"))?;
/// set_len(&mut image, &mut work, &path("log"), 4096 * plan.free_sectors().expect("it was carried out"))?;
/// # Ok::<(), Refusal>(())
/// ```
pub fn format(image: &mut [u8], plan: Plan) -> Result<(), Refusal> {
    answered(calls::format(image, plan))
}

/// Repairs an image that a power cut has bent, and gives the number of cells and colours that differ. Cells of FAT and mini
/// FAT that stand for no sector or mini sector, or for one that nobody owns, become free, and the colours of the root, the
/// storages and the streams become black. Nothing else is touched. Then the image is accepted, and lists and holds what its
/// directory named before. An accepted image gets black colours alone, and a second repair gives 0.
///
/// There are four steps, on a copy: where groups 10 and 11 hold, FAT cells behind the last sector's become free; where then
/// 12 and 13 hold, colours become black; where then 14, 15 and the rest of 16 hold, mini FAT cells behind the last mini
/// sector's become free; where then 10 to 17 hold, cells without an owner become free. The first that cannot be taken is the
/// end of it. The copy takes the image's place if [`validate`] accepts it.
///
/// The spare buffer has at least the image's length, and may hold anything. After [`Refusal::BadLength`] and
/// [`Refusal::ShortWork`] it is as it was; else as many of its bytes as the image has are zero, and the rest is as it was.
///
/// Refusals: 1; 2, where the work buffer or the spare buffer is too short; and 10 to 18, the first group of rules that is
/// still broken after the steps. Then the image is as it was.
///
/// ```
/// use gyomrelas::{repair, validate, work_need, Refusal};
///
/// let mut image = std::fs::read("../../samples/site.cfb").expect("the sample is there");
/// let mut work = vec![0; work_need(image.len())];
/// let mut spare = vec![0; image.len()];
/// // the FAT's last cell stands for no sector, and should be free
/// image[1020] = 5;
/// assert_eq!(validate(&image, &mut work), Err(Refusal::Cells));
/// assert_eq!(repair(&mut image, &mut work, &mut spare), Ok(1));
/// assert_eq!(validate(&image, &mut work), Ok(()));
/// # Ok::<(), Refusal>(())
/// ```
pub fn repair(image: &mut [u8], work: &mut [u32], spare: &mut [u8]) -> Result<u64, Refusal> {
    let (answer, changed) = calls::repair(image, work, spare);
    answered(answer).map(|()| changed)
}
