//! Fresh images (W-209): a new first image, of which everything follows from what is asked for.

use super::{Model, Row};
use crate::calls::format::Fresh;
use crate::geometry::{Geometry, V3, V4};
use crate::number::*;

impl Model {
    /// The rows start anew.
    pub fn format(&mut self, asked: &Fresh) -> Result<[u64; 3], u32> {
        *self = Model::fresh(asked, self.bytes())?;
        Ok([0; 3])
    }

    /// The length of the image.
    pub fn bytes(&self) -> usize {
        self.geometry.image_len(self.sectors as u32)
    }

    /// Nothing but a root, in a buffer of so many bytes; or the refusal.
    pub fn fresh(asked: &Fresh, bytes: usize) -> Result<Model, u32> {
        let Fresh { version, sectors, directory, mini_fat, minis } = *asked;
        let g = if version == 4 { V4 } else { V3 };
        let one_more = sectors as u128 + 1;
        if !g.length_allowed(bytes) || one_more * g.sector as u128 != bytes as u128 {
            return Err(1);
        }
        let fixed = fixed(g, asked);
        let has_cells = minis as u128 <= mini_fat as u128 * g.cells as u128;
        let carried_out = (3..5).contains(&version) && directory > 0 && has_cells && fixed < one_more;
        if !carried_out {
            return Err(32);
        }
        let root = Row { path: Vec::new(), key: Vec::new(), entry: 0, red: false, bytes: None };
        let blanks = (1..directory as u32 * g.entries as u32).collect();
        Ok(Model { geometry: g, rows: vec![root], sectors, minis, fixed: fixed as u64, blanks })
    }
}

/// The sectors of all parts: the fewest of the FAT that have a cell for each sector, the fewest of the DIFAT that have an entry for
/// each of those, the directory's and the mini FAT's, and those that the mini stream fills or begins to fill.
fn fixed(g: Geometry, asked: &Fresh) -> u128 {
    let fat = (0..).find(|fat| fat * g.cells as u64 >= asked.sectors).expect("few sectors");
    let difat = (0..).find(|difat| (HEADER_DIFAT + difat * g.difat) as u64 >= fat).expect("few sectors");
    let stream = asked.minis as u128 * MINI_SECTOR as u128;
    let filled = stream / g.sector as u128;
    let begun = !stream.is_multiple_of(g.sector as u128) as u128;
    fat as u128 + difat as u128 + asked.directory as u128 + asked.mini_fat as u128 + filled + begun
}
