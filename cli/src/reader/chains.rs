//! The chains in a table of cells: sectors in the FAT, mini sectors in the mini FAT.

use super::number::END;

pub struct Chains {
    /// One for each unit.
    pub cells: Vec<u32>,
    /// For each unit, how many units there are from it to its chain's end; 0 if it leads to no end.
    lengths: Vec<u32>,
}

/// Why a chain leads to no end.
#[derive(Clone, Copy, PartialEq, Eq, Debug)]
pub enum Fault {
    /// The start names no unit.
    Start,
    /// This unit's cell is free, or has a mark in it, or names no unit.
    Cell(u32),
    /// This unit's cell names a unit that came before.
    Ring(u32),
}

impl Chains {
    pub fn new(cells: Vec<u32>) -> Chains {
        let lengths = lengths(&cells);
        Chains { cells, lengths }
    }

    pub fn next(&self, unit: u32) -> Option<u32> {
        self.cells.get(unit as usize).copied()
    }

    /// The length of the chain from this unit on; 0 if there is none.
    pub fn length(&self, start: u32) -> u64 {
        self.lengths.get(start as usize).copied().unwrap_or(0).into()
    }

    /// Whether there is a chain of so many units from this start.
    pub fn is_chain(&self, start: u32, count: u64) -> bool {
        if count == 0 { start == END } else { self.length(start) == count }
    }

    /// The units from a start on, each once, as far as the cells lead.
    pub fn follow(&self, start: u32) -> Vec<u32> {
        self.walk(start).0
    }

    /// Why no chain ends from this start; None where one does.
    pub fn fault(&self, start: u32) -> Option<Fault> {
        self.walk(start).1
    }

    /// A unit that comes twice ends the walk.
    fn walk(&self, start: u32) -> (Vec<u32>, Option<Fault>) {
        let mut met = vec![false; self.cells.len()];
        let mut units: Vec<u32> = Vec::new();
        let mut at = start;
        while let Some(here) = met.get_mut(at as usize) {
            if std::mem::replace(here, true) {
                let last = units.last().copied().unwrap_or(start);
                return (units, Some(Fault::Ring(last)));
            }
            units.push(at);
            at = self.cells[at as usize];
        }
        let fault = match units.last() {
            None => Some(Fault::Start),
            Some(_) if at == END => None,
            Some(&last) => Some(Fault::Cell(last)),
        };
        (units, fault)
    }
}

/// Each cell is followed once: a path stops where it meets a unit that was met before.
fn lengths(cells: &[u32]) -> Vec<u32> {
    let mut lengths = vec![0; cells.len()];
    let mut met = vec![false; cells.len()];
    let mut path = Vec::new();
    for first in 0..cells.len() as u32 {
        let mut at = first;
        while let Some(met) = met.get_mut(at as usize).filter(|met| !**met) {
            *met = true;
            path.push(at as usize);
            at = cells[at as usize];
        }
        // a unit on the path itself has length 0 so far, so a ring counts as no end
        let mut behind = lengths.get(at as usize).copied().unwrap_or(0);
        let ends = at == END || behind > 0;
        while let Some(unit) = path.pop() {
            if ends {
                behind += 1;
                lengths[unit] = behind;
            }
        }
    }
    lengths
}
