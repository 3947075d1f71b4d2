//! The units that the rows need, and those that are left free.

use super::Model;
use crate::number::*;

/// Sectors and mini sectors.
#[derive(Clone, Copy, PartialEq, Debug)]
pub struct Units {
    pub sectors: u64,
    pub minis: u64,
}

impl Model {
    /// What a stream of this length needs.
    pub fn need(&self, length: u64) -> Units {
        match length {
            0..CUTOFF => Units { sectors: 0, minis: length.div_ceil(MINI_SECTOR) },
            _ => Units { sectors: length.div_ceil(self.geometry.sector as u64), minis: 0 },
        }
    }

    pub fn taken(&self) -> Units {
        let mut taken = Units { sectors: self.fixed, minis: 0 };
        for bytes in self.rows.iter().filter_map(|row| row.bytes.as_ref()) {
            let need = self.need(bytes.len() as u64);
            taken.sectors += need.sectors;
            taken.minis += need.minis;
        }
        taken
    }

    pub fn free(&self) -> Units {
        let taken = self.taken();
        Units { sectors: self.sectors - taken.sectors, minis: self.minis - taken.minis }
    }
}
