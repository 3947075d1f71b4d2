//! Group 11: where FAT and DIFAT lie.

use crate::reader::finding::{Finding, Table};
use crate::reader::header::{DIFAT_COUNT, FAT_COUNT};
use crate::reader::number::*;
use crate::reader::volume::Volume;

pub fn check(volume: &Volume) -> Result<(), Finding> {
    fat_count(volume)?;
    difat_count(volume)?;
    links(volume)?;
    entries(volume)?;
    let marks = marks(volume)?;
    marked(volume, &marks)
}

/// A cell for each sector, and not more FAT sectors than there are sectors.
fn fat_count(volume: &Volume) -> Result<(), Finding> {
    let (said, cells, count) = (volume.header.fat_count, volume.image.geometry.cells as u64, volume.image.count);
    let least = u64::from(count).div_ceil(cells);
    let text = if u64::from(said) < least {
        format!("the header counts {}; {count} sectors need at least {least}", counted(said.into(), "FAT sector"))
    } else if said > count {
        format!("the header counts {said} FAT sectors, but the file has only {count} sectors")
    } else {
        return Ok(());
    };
    Err(Finding::new(11, text).at(&volume.image, FAT_COUNT))
}

fn difat_count(volume: &Volume) -> Result<(), Finding> {
    let (fat, said) = (volume.header.fat_count as usize, volume.header.difat_count);
    let due = fat.saturating_sub(HEADER_DIFAT).div_ceil(volume.image.geometry.difat);
    if said as usize == due {
        return Ok(());
    }
    let said = counted(said.into(), "DIFAT sector");
    let text = format!("the header counts {said}; for {} it should be {due}", counted(fat as u64, "FAT sector"));
    Err(Finding::new(11, text).at(&volume.image, DIFAT_COUNT))
}

/// D sectors, and then the end.
fn links(volume: &Volume) -> Result<(), Finding> {
    let (image, tables, due) = (&volume.image, &volume.tables, volume.header.difat_count as usize);
    let index = tables.difat.len().min(due);
    let (place, link) = tables.link(image, index);
    let there = cell_text(link);
    let text = if index == due {
        if link == END {
            return Ok(());
        }
        let sectors = counted(due as u64, "DIFAT sector");
        format!("the link behind {sectors} is {there}; it should be end of chain (FFFFFFFE)")
    } else if link < image.count {
        format!("the DIFAT's link {index} names sector {link}, which is a DIFAT sector already")
    } else {
        format!(
            "the DIFAT's link {index} is {there}; it should be a sector below {} (the header counts {due})",
            image.count
        )
    };
    Err(Finding::new(11, text).at(image, place))
}

/// The first F entries are sectors, and the others free.
fn entries(volume: &Volume) -> Result<(), Finding> {
    let (count, fat) = (volume.image.count, volume.header.fat_count as usize);
    let wrong = |(index, &entry): (usize, &u32)| if index < fat { entry >= count } else { entry != FREE };
    let Some(index) = volume.tables.entries.iter().enumerate().position(wrong) else { return Ok(()) };
    let there = cell_text(volume.tables.entries[index]);
    let text = if index < fat {
        format!("DIFAT entry {index} is {there}; it should be the FAT's sector {index}, a number below {count}")
    } else {
        let fat = counted(fat as u64, "FAT sector");
        format!("DIFAT entry {index} is {there}; behind the {fat} it should be free (FFFFFFFF)")
    };
    Err(Finding::new(11, text).at(&volume.image, volume.tables.entry_place(&volume.image, index)))
}

/// The mark that is due in each sector's cell: FATSECT, DIFSECT, or FREE for none. All table sectors are different.
fn marks(volume: &Volume) -> Result<Vec<u32>, Finding> {
    let (image, tables) = (&volume.image, &volume.tables);
    let mut marks = vec![FREE; image.count as usize];
    for (index, &sector) in tables.difat.iter().enumerate() {
        // those that the links lead to are different among themselves
        if std::mem::replace(&mut marks[sector as usize], DIFSECT) != FREE {
            return Err(twice(sector).at(image, tables.link(image, index).0));
        }
    }
    for (index, &sector) in tables.fat.iter().enumerate() {
        if std::mem::replace(&mut marks[sector as usize], FATSECT) != FREE {
            return Err(twice(sector).at(image, tables.entry_place(image, index)));
        }
    }
    Ok(marks)
}

fn twice(sector: u32) -> Finding {
    Finding::new(
        11,
        format!("sector {sector} is named a second time as a sector of FAT or DIFAT; all should be different"),
    )
}

/// Exactly the table sectors have their marks.
fn marked(volume: &Volume, marks: &[u32]) -> Result<(), Finding> {
    let marking = |cell: u32| cell == FATSECT || cell == DIFSECT;
    let wrong = |(&cell, &mark): (&u32, &u32)| cell != mark && (marking(cell) || mark != FREE);
    let Some(sector) = volume.tables.cells.iter().zip(marks).position(wrong) else { return Ok(()) };
    let there = cell_text(volume.tables.cells[sector]);
    let text = match marks[sector] {
        FATSECT => format!("sector {sector} is a FAT sector, but its cell is {there}; it should be FFFFFFFD (FATSECT)"),
        DIFSECT => {
            format!("sector {sector} is a DIFAT sector, but its cell is {there}; it should be FFFFFFFC (DIFSECT)")
        }
        _ => format!("the cell is {there}, but sector {sector} is no sector of FAT or DIFAT"),
    };
    let place = volume.image.cell_place(&volume.tables.fat, sector as u32).unwrap_or(0);
    Err(Finding::new(11, text).at(&volume.image, place).cell(Table::Fat, sector as u32))
}
