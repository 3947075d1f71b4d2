//! What the two versions of the format differ in.

use super::number::u16_at;

#[derive(Clone, Copy, PartialEq, Eq, Debug)]
pub struct Geometry {
    /// The major version and the sector shift, as the header gives them.
    pub major: u16,
    pub shift: u16,
    /// The bytes of a sector. The header takes as many.
    pub sector: usize,
    /// Cells of a FAT or mini FAT sector.
    pub cells: usize,
    /// DIFAT entries of a sector, before its link.
    pub difat: usize,
    /// Directory entries of a sector.
    pub entries: usize,
    /// Whether all eight bytes of a size count; if not, the lower four do.
    pub wide_sizes: bool,
    /// Whether the header counts the directory's sectors; if not, the field is zero.
    pub counts_directory: bool,
}

pub const V3: Geometry = Geometry {
    major: 3,
    shift: 9,
    sector: 512,
    cells: 128,
    difat: 127,
    entries: 4,
    wide_sizes: false,
    counts_directory: false,
};

pub const V4: Geometry = Geometry {
    major: 4,
    shift: 12,
    sector: 4096,
    cells: 1024,
    difat: 1023,
    entries: 32,
    wide_sizes: true,
    counts_directory: true,
};

/// The longest file that the library takes, of either version.
pub const GREATEST: usize = 67_108_864;

/// The major version that the header names.
pub fn major(bytes: &[u8]) -> u16 {
    u16_at(bytes, 26)
}

impl Geometry {
    /// By the major version, or, where that is unknown, by the sector shift.
    pub fn of(bytes: &[u8]) -> Geometry {
        match (major(bytes), u16_at(bytes, 30)) {
            (3, _) => V3,
            (4, _) | (_, 12) => V4,
            _ => V3,
        }
    }

    /// A header and two sectors.
    pub fn least(&self) -> usize {
        3 * self.sector
    }

    pub fn allows(&self, length: usize) -> bool {
        length.is_multiple_of(self.sector) && (self.least()..=GREATEST).contains(&length)
    }
}
