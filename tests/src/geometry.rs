//! What the two versions of the format differ in (W-207). Everything else is written once, for either.

use crate::number::*;

#[derive(Clone, Copy, PartialEq, Eq, Debug)]
pub struct Geometry {
    /// The major version and the sector shift, as the header gives them.
    pub major: u16,
    pub shift: u16,
    /// The bytes of a sector. The header takes as many.
    pub sector: usize,
    /// Cells in a FAT or mini FAT sector.
    pub cells: usize,
    /// DIFAT entries in a DIFAT sector before its link.
    pub difat: usize,
    /// Directory entries in a sector.
    pub entries: usize,
    /// Mini sectors in a sector.
    pub minis: usize,
    /// How many bytes of a size count; older programs left rubbish in the others (W-205).
    pub size_bytes: usize,
    /// Whether the header's field at 40 counts the directory's sectors; otherwise it is zero.
    pub counts_directory: bool,
    /// The bytes of the shortest image.
    pub least_image: usize,
}

pub const V3: Geometry = Geometry {
    major: 3,
    shift: 9,
    sector: 512,
    cells: 128,
    difat: 127,
    entries: 4,
    minis: 8,
    size_bytes: 4,
    counts_directory: false,
    least_image: 1_536,
};

pub const V4: Geometry = Geometry {
    major: 4,
    shift: 12,
    sector: 4_096,
    cells: 1_024,
    difat: 1_023,
    entries: 32,
    minis: 64,
    size_bytes: 8,
    counts_directory: true,
    least_image: 12_288,
};

pub const VERSIONS: [Geometry; 2] = [V3, V4];

/// The bytes of the longest image of either version.
pub const GREATEST_IMAGE: usize = 67_108_864;

impl Geometry {
    pub fn length_allowed(&self, image_len: usize) -> bool {
        image_len.is_multiple_of(self.sector) && (self.least_image..=GREATEST_IMAGE).contains(&image_len)
    }

    /// N for an image of so many bytes: the header is no sector.
    pub const fn count(&self, image_len: usize) -> u32 {
        (image_len / self.sector - 1) as u32
    }

    /// The bytes of an image of so many sectors.
    pub fn image_len(&self, sectors: u32) -> usize {
        (sectors as usize + 1) * self.sector
    }

    /// Where sector s starts; the header lies before sector 0.
    pub fn place(&self, s: u32) -> usize {
        (s as usize + 1) * self.sector
    }

    /// The bytes of sector s.
    pub fn bytes<'a>(&self, image: &'a [u8], s: u32) -> &'a [u8] {
        &image[self.place(s)..][..self.sector]
    }

    /// The bytes of these sectors laid end to end.
    pub fn gather(&self, image: &[u8], sectors: &[u32]) -> Vec<u8> {
        let mut bytes = Vec::with_capacity(sectors.len() * self.sector);
        for &s in sectors {
            bytes.extend_from_slice(self.bytes(image, s));
        }
        bytes
    }

    /// The place of a cell of the table that lies in these sectors.
    pub fn cell(&self, table: &[u32], unit: u32) -> usize {
        self.place(table[unit as usize / self.cells]) + unit as usize % self.cells * 4
    }

    /// The place of an entry of the directory that lies in these sectors.
    pub fn entry(&self, directory: &[u32], number: u32) -> usize {
        self.place(directory[number as usize / self.entries]) + number as usize % self.entries * ENTRY
    }
}
