//! What a fresh image is asked for.

#![forbid(unsafe_code)]

use crate::Refusal;

/// The longest image.
const GREATEST_IMAGE: u64 = 67_108_864;

/// The FAT sectors that the header itself lists.
const HEADER_DIFAT: u64 = 109;

/// A fresh image, as [`format`](crate::format) writes it. None of these numbers changes as long as the image lives.
#[derive(Clone, Copy, PartialEq, Eq, Hash, Debug)]
pub struct Plan {
    /// 3, with sectors of 512 bytes, or 4, with sectors of 4,096.
    pub version: u32,
    /// How many sectors there are. The image's length is one more, as the header takes the place of one.
    pub sectors: u64,
    /// How many of them the directory has. Each holds 4 entries, in version 4 32: one for the root, and one for each stream
    /// and storage to come.
    pub directory_sectors: u64,
    /// How many of them the mini FAT has. Each holds the cells of 128 mini sectors, in version 4 of 1,024.
    pub mini_fat_sectors: u64,
    /// How many mini sectors there are, of 64 bytes each, for the streams of fewer than 4,096 bytes.
    pub mini_sectors: u64,
}

impl Plan {
    /// A plan for an image of so many bytes, with room for so many objects: streams and storages, of which the streams of
    /// fewer than 4,096 bytes have up to `small_bytes` bytes together, however these are spread. Such a stream takes whole
    /// mini sectors, which is counted in.
    ///
    /// Nothing is larger than that asks for, and all other sectors are [free](Plan::free_sectors) for streams of 4,096
    /// bytes and more. [`format`](crate::format) does not refuse the plan for a buffer of that length. Where there is a
    /// refusal here, no plan has the room.
    ///
    /// Refusals: 1, where the version has no image of that length; and 32.
    ///
    /// ```
    /// use gyomrelas::{Plan, Refusal};
    ///
    /// let plan = Plan::for_size(3, 65_536, 10, 2_000)?;
    /// assert_eq!((plan.sectors, plan.directory_sectors), (127, 3));
    /// // 2,000 bytes take 32 mini sectors in one stream, and 41 where nine others have a byte of them each
    /// assert_eq!((plan.mini_fat_sectors, plan.mini_sectors), (1, 41));
    /// assert_eq!(plan.free_sectors(), Some(127 - 1 - 3 - 1 - 6));
    /// assert_eq!(Plan::for_size(3, 65_536, 1_000, 0), Err(Refusal::PlanDoesNotFit));
    /// # Ok::<(), Refusal>(())
    /// ```
    pub fn for_size(version: u32, bytes: usize, objects: u64, small_bytes: u64) -> Result<Plan, Refusal> {
        let (sector, length) = (sector_bytes(version), bytes as u64);
        if !length.is_multiple_of(sector) || !(3 * sector..=GREATEST_IMAGE).contains(&length) {
            return Err(Refusal::BadLength);
        }
        let mini_sectors = mini_sectors(objects, small_bytes);
        let plan = Plan {
            version,
            sectors: length / sector - 1,
            // the root has an entry too
            directory_sectors: objects / (sector / 128) + 1,
            mini_fat_sectors: mini_sectors.div_ceil(sector / 4),
            mini_sectors,
        };
        plan.free_sectors().map(|_| plan).ok_or(Refusal::PlanDoesNotFit)
    }

    /// How many sectors of the fresh image are free, for streams of 4,096 bytes and more. `None` for a plan that
    /// [`format`](crate::format) refuses with 32, whatever the buffer's length.
    pub fn free_sectors(&self) -> Option<u64> {
        let sector = sector_bytes(self.version);
        let cells = sector / 4;
        let enough_cells = self.mini_sectors.div_ceil(cells) <= self.mini_fat_sectors;
        if !matches!(self.version, 3 | 4) || self.directory_sectors == 0 || !enough_cells {
            return None;
        }
        let fat = self.sectors.div_ceil(cells);
        // the last number of a DIFAT sector is a link
        let difat = fat.saturating_sub(HEADER_DIFAT).div_ceil(cells - 1);
        let mini_stream = self.mini_sectors.div_ceil(sector / 64);
        let parts = [fat, difat, self.directory_sectors, self.mini_fat_sectors, mini_stream];
        parts.into_iter().try_fold(self.sectors, u64::checked_sub)
    }
}

/// An unknown version has the lengths of version 3.
fn sector_bytes(version: u32) -> u64 {
    if version == 4 {
        4096
    } else {
        512
    }
}

/// The most that streams of fewer than 4,096 bytes can need: each begins a mini sector with its first byte, and another one
/// with every 64 bytes more, up to 64 of them.
fn mini_sectors(objects: u64, small_bytes: u64) -> u64 {
    let streams = objects.min(small_bytes);
    let needed = streams + (small_bytes - streams) / 64;
    needed.min(objects.saturating_mul(64))
}
