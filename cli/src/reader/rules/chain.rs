//! A chain of a number of units, which groups 13, 16 and 17 ask for.

use crate::reader::chains::{Chains, Fault};
use crate::reader::finding::{Finding, Table};
use crate::reader::number::*;
use crate::reader::volume::Volume;

/// A chain that is due.
pub struct Due<'a> {
    pub group: u32,
    /// Whose it is, as in "the mini FAT's chain".
    pub what: &'a str,
    /// Its start, and where that stands in the file.
    pub start: u32,
    pub start_place: usize,
    /// How many units it should have, and what says so; None where any number but 0 will do.
    pub count: Option<(u64, &'a str)>,
}

/// The kind of units.
pub struct Space<'a> {
    pub table: Table,
    pub chains: &'a Chains,
    /// The sectors that the table lies in.
    pub sectors: &'a [u32],
}

impl Due<'_> {
    pub fn check(&self, volume: &Volume, space: &Space) -> Result<(), Finding> {
        let held = match self.count {
            Some((count, _)) => space.chains.is_chain(self.start, count),
            None => space.chains.length(self.start) > 0,
        };
        if held { Ok(()) } else { Err(self.finding(volume, space)) }
    }

    /// How the chain fails, which it does.
    fn finding(&self, volume: &Volume, space: &Space) -> Finding {
        let at_start = |text| Finding::new(self.group, text).at(&volume.image, self.start_place);
        let (what, unit, start) = (self.what, space.table.unit(), cell_text(self.start));
        let units = space.chains.cells.len();
        if let Some((0, why)) = self.count {
            return at_start(format!("{what} starts at {start}; {why}, so it should be end of chain (FFFFFFFE)"));
        }
        match space.chains.fault(self.start) {
            Some(Fault::Start) => at_start(format!("{what} starts at {start}, which is no {unit} (there are {units})")),
            Some(Fault::Cell(last)) => {
                let there = cell_text(space.chains.next(last).unwrap_or(FREE));
                let text = format!("{what} breaks at {unit} {last}: its cell is {there}, neither a {unit} nor an end");
                self.at_cell(volume, space, last, text)
            }
            Some(Fault::Ring(last)) => {
                let back = space.chains.next(last).unwrap_or(FREE);
                let text = format!("{what} never ends: the cell of {unit} {last} leads back to {unit} {back}");
                self.at_cell(volume, space, last, text)
            }
            None => self.miscounted(volume, space),
        }
    }

    /// The chain ends, but too early or too late.
    fn miscounted(&self, volume: &Volume, space: &Space) -> Finding {
        let units = space.chains.follow(self.start);
        let (due, why) = self.count.unwrap_or((1, "there is at least one"));
        let unit = space.table.unit();
        let has = counted(units.len() as u64, unit);
        let (what, start) = (self.what, self.start);
        // the cell that should go on, or that should end
        let index = usize::try_from(due).unwrap_or(usize::MAX).min(units.len()).max(1) - 1;
        let text = format!("{what} from {unit} {start} has {has}, but should have {due}: {why}");
        self.at_cell(volume, space, units[index], text)
    }

    fn at_cell(&self, volume: &Volume, space: &Space, cell: u32, text: String) -> Finding {
        let place = volume.image.cell_place(space.sectors, cell).unwrap_or(self.start_place);
        Finding::new(self.group, text).at(&volume.image, place).cell(space.table, cell)
    }
}

/// The sectors of a volume.
pub fn sectors<'a>(volume: &'a Volume) -> Space<'a> {
    Space { table: Table::Fat, chains: &volume.sectors, sectors: &volume.tables.fat }
}

/// The mini sectors of a volume.
pub fn minis<'a>(volume: &'a Volume) -> Space<'a> {
    Space { table: Table::MiniFat, chains: &volume.mini.chains, sectors: &volume.mini.fat }
}
