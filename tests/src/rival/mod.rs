//! The rival (W-210): a validator of the same rules as the library's, made to be fast, in safe Rust and without a heap. It is
//! lent the same work buffer and leaves it as the library does. Each group of rules has a file.
//!
//! The work buffer, from its start:
//!   the FAT's cells, and marks in their place (`marks`), N numbers
//!   two numbers for each entry (`nodes`); later the mini FAT's cells, and marks in their place
//!   two numbers for each stream that is not empty, as far as there is room (`notes`)
//! and from its end: DIFAT sectors, FAT sectors, directory sectors in falling order, mini FAT sectors.

mod cells;
mod chains;
mod check;
mod directory;
mod entries;
mod header;
mod image;
mod marks;
mod mini;
mod names;
mod nodes;
mod notes;
mod streams;
mod tables;
mod trees;

use crate::volume::{version, work_needed};
pub use check::check;
use directory::Directory;
use image::Image;

/// 0, or the lowest number that applies: 1, 2, or the first group that the image breaks.
pub fn validate(image: &[u8], work: &mut [u32]) -> u32 {
    let (g, needed) = (version(image), work_needed(image.len()));
    if !g.length_allowed(image.len()) {
        return 1;
    }
    let Some(work) = work.get_mut(..needed) else { return 2 };
    let judged = if g.sector == 512 { groups::<512>(image, work) } else { groups::<4096>(image, work) };
    work.fill(0);
    judged.err().unwrap_or(0)
}

/// The groups in order, for sectors of S bytes.
fn groups<const S: usize>(image: &[u8], work: &mut [u32]) -> Result<(), u32> {
    let image = Image::<S>::new(image);
    header::check(image)?;
    let counts = tables::counts(image)?;
    let (front, listed) = work.split_at_mut(work.len() - counts.fat - counts.difat);
    let (next, rest) = front.split_at_mut(image.count());
    let free = tables::read(image, counts, next, listed)?;
    let taken = directory::walk(image, next, rest)?;
    let (area, list) = rest.split_at_mut(rest.len() - taken);
    let directory = Directory { list };
    let root = entries::root(image, directory)?;
    let (area, mini_fat) = area.split_at_mut(area.len() - mini::sectors(image));
    let (nodes, room) = area.split_at_mut(root.minis(image).max(2 * directory.entries(image) + 2));
    let (nodes_in_pairs, notes) = (nodes.as_chunks_mut().0, room.as_chunks_mut().0);
    let seen = entries::read(image, directory, nodes_in_pairs, notes)?;
    trees::check(image, directory, nodes_in_pairs, root.top(image, directory), seen.objects)?;
    let minis = mini::read(image, directory, &root, next, mini_fat, nodes)?;
    let owned = streams::check(image, directory, &seen, notes, next, &mut nodes[..minis.count])?;
    let system = counts.fat + counts.difat + taken + minis.sectors;
    let covered = system + owned.sectors + free == image.count() && owned.minis + minis.free == minis.count;
    if covered && !minis.shared && !owned.shared { Ok(()) } else { Err(18) }
}
