//! Group 12, and what 16 says likewise: the values of a table's cells.

use crate::reader::finding::{Finding, Table};
use crate::reader::number::*;
use crate::reader::volume::Volume;

/// The marks of table sectors stand where they should: group 11 holds.
pub fn check(volume: &Volume) -> Result<(), Finding> {
    let fine = |cell| matches!(cell, FATSECT | DIFSECT);
    let cells = Cells { table: Table::Fat, cells: &volume.tables.cells, sectors: &volume.tables.fat };
    cells.check(volume, 12, volume.image.count.into(), fine)
}

/// A table of cells, and the sectors that it lies in.
pub struct Cells<'a> {
    pub table: Table,
    pub cells: &'a [u32],
    pub sectors: &'a [u32],
}

impl Cells<'_> {
    /// Each cell of a unit names a unit, ends a chain or is free (or is fine for another reason); the others are free.
    pub fn check(&self, volume: &Volume, group: u32, units: u64, fine: fn(u32) -> bool) -> Result<(), Finding> {
        let of_unit = |cell: u32| u64::from(cell) < units || cell == END || cell == FREE || fine(cell);
        let wrong = |(number, &cell): (u64, &u32)| if number < units { !of_unit(cell) } else { cell != FREE };
        let Some(number) = (0..).zip(self.cells).position(wrong) else { return Ok(()) };
        let (there, unit) = (cell_text(self.cells[number]), self.table.unit());
        let text = if (number as u64) < units {
            format!(
                "the cell is {there}; it should be a {unit} below {units}, end of chain (FFFFFFFE) or free (FFFFFFFF)"
            )
        } else {
            format!(
                "the cell is {there}, but there is no {unit} {number} (there are {units}); it should be free (FFFFFFFF)"
            )
        };
        let number = number as u32;
        let place = volume.image.cell_place(self.sectors, number).unwrap_or(0);
        Err(Finding::new(group, text).at(&volume.image, place).cell(self.table, number))
    }
}
