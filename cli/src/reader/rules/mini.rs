//! Group 16: the mini FAT and the mini stream.

use super::cells::Cells;
use super::chain::{Due, sectors};
use crate::reader::entry::{Entry, SIZE, START};
use crate::reader::finding::{Finding, Table};
use crate::reader::header::{FIRST_MINI_FAT, MINI_FAT_COUNT};
use crate::reader::number::*;
use crate::reader::volume::Volume;

pub fn check(volume: &Volume) -> Result<(), Finding> {
    let Some(root) = volume.entry(0) else { return Ok(()) };
    mini_fat(volume)?;
    whole_minis(volume, &root)?;
    mini_stream(volume, &root)?;
    enough_cells(volume)?;
    let cells = Cells { table: Table::MiniFat, cells: &volume.mini.cells, sectors: &volume.mini.fat };
    cells.check(volume, 16, volume.mini.count, |_| false)
}

fn mini_fat(volume: &Volume) -> Result<(), Finding> {
    let count = volume.header.mini_fat_count;
    let why = format!("the header counts {}", counted(count.into(), "mini FAT sector"));
    let due = Due {
        group: 16,
        what: "the mini FAT's chain",
        start: volume.header.first_mini_fat,
        start_place: FIRST_MINI_FAT,
        count: Some((count.into(), &why)),
    };
    due.check(volume, &sectors(volume))
}

fn whole_minis(volume: &Volume, root: &Entry) -> Result<(), Finding> {
    let size = root.size();
    if size.is_multiple_of(MINI_SECTOR) {
        return Ok(());
    }
    let text = format!("the size of the mini stream is {size} bytes; it should be a multiple of 64");
    Err(Finding::new(16, text).entry(&volume.image, root, SIZE))
}

fn mini_stream(volume: &Volume, root: &Entry) -> Result<(), Finding> {
    let why = format!("its size is {}", counted(root.size(), "byte"));
    let due = Due {
        group: 16,
        what: "the mini stream's chain",
        start: root.start(),
        start_place: root.place + START,
        count: Some((root.size().div_ceil(volume.image.geometry.sector as u64), &why)),
    };
    due.check(volume, &sectors(volume)).map_err(|finding| finding.about(root))
}

fn enough_cells(volume: &Volume) -> Result<(), Finding> {
    let (minis, cells) = (volume.mini.count, volume.mini.cells.len());
    if cells as u64 >= minis {
        return Ok(());
    }
    let fat = counted(volume.header.mini_fat_count.into(), "mini FAT sector");
    let text = format!("the header counts {fat}, which have {cells} cells; the mini stream has {minis} mini sectors");
    Err(Finding::new(16, text).at(&volume.image, MINI_FAT_COUNT))
}
