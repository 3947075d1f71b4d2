//! Group 16: the mini FAT and the mini stream.

use super::cells::{self, Seen};
use super::chains;
use super::directory::Directory;
use super::entries::Root;
use super::image::Image;
use crate::number::*;

pub struct Mini {
    /// K.
    pub count: usize,
    pub free: usize,
    /// Of both chains.
    pub sectors: usize,
    /// A sector of them is another's too.
    pub shared: bool,
}

/// The header's count of mini FAT sectors, or N where group 16 refuses it.
pub fn sectors<const S: usize>(image: Image<S>) -> usize {
    (u32_at(image.header, 64) as usize).min(image.count())
}

/// Marks both chains, and copies the K cells to `cells`. The mini FAT's sectors are listed.
pub fn read<const S: usize>(
    image: Image<S>,
    directory: Directory,
    root: &Root,
    next: &mut [u32],
    list: &mut [u32],
    cells: &mut [u32],
) -> Result<Mini, u32> {
    let count = root.minis(image);
    let sectors = u32_at(image.header, 64) as usize;
    let counted =
        root.size == count as u64 * MINI_SECTOR && sectors <= image.count() && count <= sectors * Image::<S>::CELLS;
    if !counted {
        return Err(16);
    }
    let stream = root.size.div_ceil(S as u64) as usize;
    let (start, taken) = (u32_at(image.header, 60), directory.list.len() as u32);
    let mut listed = list.iter_mut();
    let mut put = |s| *listed.next().expect("room for all") = s;
    let first = chains::mark(next, start, sectors as u32, taken, &mut put).or(Err(16u32))?;
    if let Some(left) = first {
        // Only the directory's chain was there before.
        directory.from((taken - left) as usize).for_each(put);
    }
    let second = chains::mark(next, root.start, stream as u32, taken, |_| {}).or(Err(16u32))?;
    let mut seen = Seen::default();
    let rest_free = cells::copy_table(image, list, &mut cells[..count], END, &mut seen);
    if seen.wild || rest_free != Some(true) {
        return Err(16);
    }
    let shared = first.is_some() || second.is_some();
    Ok(Mini { count, free: seen.free as usize, sectors: sectors + stream, shared })
}
