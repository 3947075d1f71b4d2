//! Chains of a known length, marked in the place of their cells.

use super::marks::{self, MARK};
use crate::number::END;

/// So many are walked side by side.
const LANES: usize = 32;

/// No chain of this length.
pub struct Broken;

/// Where a chain begins to be that of another, with the units left.
pub type Shared = Option<u32>;

/// Marks one chain, and hands over each unit up to where it is shared.
pub fn mark(
    cells: &mut [u32],
    start: u32,
    units: u32,
    directory: u32,
    mut each: impl FnMut(u32),
) -> Result<Shared, Broken> {
    let mut at = start;
    for left in (1..=units).rev() {
        let cell = cells.get_mut(at as usize).ok_or(Broken)?;
        let value = *cell;
        if value >= MARK && value != END {
            return if marks::units(value, directory) == left { Ok(Some(left)) } else { Err(Broken) };
        }
        *cell = marks::left(left);
        each(at);
        at = value;
    }
    if at == END { Ok(None) } else { Err(Broken) }
}

/// Chains that are walked side by side, so that a cell that is not near does not hold up the others.
pub struct Lanes {
    at: [u32; LANES],
    left: [u32; LANES],
    live: usize,
    directory: u32,
    /// The units of all of them.
    pub units: usize,
    pub shared: bool,
}

impl Lanes {
    pub fn new(directory: u32) -> Lanes {
        Lanes { at: [0; LANES], left: [0; LANES], live: 0, directory, units: 0, shared: false }
    }

    /// A chain of at least one unit.
    pub fn add(&mut self, cells: &mut [u32], start: u32, units: u32) -> Result<(), Broken> {
        while self.live == LANES {
            self.step(cells)?;
        }
        (self.at[self.live], self.left[self.live]) = (start, units);
        self.live += 1;
        self.units += units as usize;
        Ok(())
    }

    /// Goes on to the end of all chains.
    pub fn finish(&mut self, cells: &mut [u32]) -> Result<(), Broken> {
        while self.live > 1 {
            self.step(cells)?;
        }
        if self.live == 1 {
            self.shared |= mark(cells, self.at[0], self.left[0], self.directory, |_| {})?.is_some();
        }
        Ok(())
    }

    /// One unit of each chain.
    fn step(&mut self, cells: &mut [u32]) -> Result<(), Broken> {
        let mut i = 0;
        while i < self.live.min(LANES) {
            let left = self.left[i];
            let cell = cells.get_mut(self.at[i] as usize).ok_or(Broken)?;
            let value = *cell;
            if value < MARK && left > 1 {
                *cell = marks::left(left);
                (self.at[i], self.left[i]) = (value, left - 1);
                i += 1;
                continue;
            }
            if value == END && left == 1 {
                *cell = marks::left(1);
            } else if value < MARK || value == END || marks::units(value, self.directory) != left {
                return Err(Broken);
            } else {
                self.shared = true;
            }
            self.live -= 1;
            (self.at[i], self.left[i]) = (self.at[self.live], self.left[self.live]);
        }
        Ok(())
    }
}
