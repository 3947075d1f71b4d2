//! An image cut into sectors of S bytes.

use crate::number::ENTRY;

#[derive(Clone, Copy)]
pub struct Image<'a, const S: usize> {
    pub header: &'a [u8; S],
    pub sectors: &'a [[u8; S]],
    /// The whole image, header and all, in pieces as long as an entry.
    pieces: &'a [[u8; ENTRY]],
}

impl<'a, const S: usize> Image<'a, S> {
    /// Cells of a table in a sector, and directory entries.
    pub const CELLS: usize = S / 4;
    pub const ENTRIES: usize = S / ENTRY;
    /// So many sectors are touched together.
    pub const AHEAD: usize = if S == 512 { 16 } else { 2 };

    /// Of bytes that are sectors, at least three.
    pub fn new(bytes: &'a [u8]) -> Image<'a, S> {
        let (header, sectors) = bytes.as_chunks().0.split_first().expect("a header");
        Image { header, sectors, pieces: bytes.as_chunks().0 }
    }

    /// N.
    pub fn count(&self) -> usize {
        self.sectors.len()
    }

    /// Reads from each line of these sectors where they do not lie one after the other, so that they come from memory side by side.
    pub fn touch(&self, sectors: &[u32]) {
        let [first, .., last] = *sectors else { return };
        if first.abs_diff(last) as usize == sectors.len() - 1 {
            return;
        }
        let mut any = 0;
        for sector in sectors.iter().filter_map(|&s| self.sectors.get(s as usize)) {
            any |= sector.iter().step_by(64).fold(0, |any, byte| any | byte);
        }
        std::hint::black_box(any);
    }

    /// The entry of this number in a directory sector.
    pub fn entry(&self, sector: u32, number: usize) -> &'a [u8; ENTRY] {
        &self.pieces[(sector as usize + 1) * Self::ENTRIES + number]
    }
}

/// Bytes as 32-bit numbers that are still to be read.
pub fn words(bytes: &[u8]) -> &[[u8; 4]] {
    bytes.as_chunks().0
}
