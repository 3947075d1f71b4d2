//! The chains in a table of cells: sectors in the FAT, mini sectors in the mini FAT.

use crate::number::END;

pub struct Chains {
    pub cells: Vec<u32>,
    /// For each unit, how many units from it to its chain's end; 0 if it leads to no end.
    lengths: Vec<u32>,
}

impl Chains {
    pub fn new(cells: &[u32]) -> Chains {
        Chains { cells: cells.to_vec(), lengths: lengths(cells) }
    }

    /// The length of the chain from this unit; 0 if there is none.
    pub fn length(&self, start: u32) -> u64 {
        self.lengths.get(start as usize).copied().unwrap_or(0) as u64
    }

    /// Whether there is a chain of n from this start.
    pub fn is_chain(&self, start: u32, n: u64) -> bool {
        if n == 0 { start == END } else { self.length(start) == n }
    }

    /// The units of a chain, which must be one.
    pub fn units(&self, start: u32) -> impl Iterator<Item = u32> + '_ {
        let mut at = start;
        std::iter::from_fn(move || {
            let unit = at;
            at = *self.cells.get(unit as usize)?;
            Some(unit)
        })
    }
}

/// Each cell is followed once: a path stops where it meets a unit that was met before.
fn lengths(cells: &[u32]) -> Vec<u32> {
    let mut lengths = vec![0; cells.len()];
    let mut met = vec![false; cells.len()];
    let mut path = Vec::new();
    for first in 0..cells.len() {
        let mut at = first as u32;
        while (at as usize) < cells.len() && !met[at as usize] {
            met[at as usize] = true;
            path.push(at);
            at = cells[at as usize];
        }
        // A unit on the path has length 0 so far, so a ring counts as no end.
        let mut behind = lengths.get(at as usize).copied().unwrap_or(0);
        let ends = at == END || behind > 0;
        while let Some(unit) = path.pop() {
            if ends {
                behind += 1;
                lengths[unit as usize] = behind;
            }
        }
    }
    lengths
}
