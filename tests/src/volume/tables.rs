//! Groups 11 and 12: where FAT and DIFAT lie, and the values of the FAT's cells.

use super::header::Header;
use crate::geometry::Geometry;
use crate::number::*;

pub struct Tables {
    /// N: the sectors behind the header.
    pub count: usize,
    pub fat: Vec<u32>,
    pub difat: Vec<u32>,
    /// All cells of the FAT, also those from N on.
    pub cells: Vec<u32>,
}

/// D for a FAT of so many sectors.
pub fn difat_needed(g: Geometry, fat_count: u64) -> u64 {
    fat_count.saturating_sub(HEADER_DIFAT as u64).div_ceil(g.difat as u64)
}

impl Tables {
    /// None if group 11 is broken.
    pub fn read(g: Geometry, image: &[u8], count: usize, header: &Header) -> Option<Tables> {
        let fat_count = header.fat_count as u64;
        // A FAT of more than N sectors cannot have sectors that are all different.
        let counts = fat_count >= 1
            && g.cells as u64 * fat_count >= count as u64
            && fat_count <= count as u64
            && header.difat_count as u64 == difat_needed(g, fat_count);
        if !counts {
            return None;
        }
        let (difat, entries) = follow_difat(g, image, count, header)?;
        let (fat, rest) = entries.split_at(fat_count as usize);
        if rest.iter().any(|&e| e != FREE) || fat.iter().any(|&s| s as usize >= count) {
            return None;
        }
        let cells = words(&g.gather(image, fat));
        let tables = Tables { count, fat: fat.to_vec(), difat, cells };
        tables.marked().then_some(tables)
    }

    /// FAT and DIFAT sectors are all different, and exactly they have FATSECT and DIFSECT.
    fn marked(&self) -> bool {
        let mut due = vec![FREE; self.count];
        let fat = self.fat.iter().map(|&s| (s, FATSECT));
        let difat = self.difat.iter().map(|&s| (s, DIFSECT));
        for (s, mark) in fat.chain(difat) {
            if due[s as usize] != FREE {
                return false;
            }
            due[s as usize] = mark;
        }
        let special = |cell| cell == FATSECT || cell == DIFSECT;
        due.iter().zip(&self.cells).all(|(&mark, &cell)| if mark == FREE { !special(cell) } else { cell == mark })
    }

    /// Group 12.
    pub fn cells_hold(&self) -> bool {
        let allowed = |&cell: &u32| (cell as usize) < self.count || [END, FREE, FATSECT, DIFSECT].contains(&cell);
        self.cells[..self.count].iter().all(allowed) && self.cells[self.count..].iter().all(|&cell| cell == FREE)
    }
}

/// The DIFAT sectors, and all entries: the header's, then theirs. None if the links are not D sectors and an end.
fn follow_difat(g: Geometry, image: &[u8], count: usize, header: &Header) -> Option<(Vec<u32>, Vec<u32>)> {
    let mut sectors = Vec::new();
    let mut entries = header.difat.clone();
    let mut next = header.first_difat;
    for _ in 0..header.difat_count {
        if next as usize >= count {
            return None;
        }
        sectors.push(next);
        let held = words(g.bytes(image, next));
        entries.extend_from_slice(&held[..g.difat]);
        next = held[g.difat];
    }
    (next == END).then_some((sectors, entries))
}
