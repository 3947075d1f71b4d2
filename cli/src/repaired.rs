//! What a repair has changed: cells and colours, found by comparing the file before and after.

use crate::layout::{DIFAT, END, FAT, FREE, Layout, word};
use crate::typed::printed;

/// Where the colour of an entry stands in it.
const COLOUR: usize = 67;

/// A line for each change, in the order FAT, mini FAT, directory. A repair moves no table, so the layout after it is
/// that before it, too.
pub fn changes(before: &[u8], after: &[u8]) -> Option<Vec<String>> {
    let layout = Layout::read(after)?;
    let mut lines = Vec::new();
    for number in 0..layout.fat_cells() {
        let place = layout.fat_cell(number)?;
        lines.extend(cell("FAT", number, word(before, place)?, word(after, place)?));
    }
    for number in 0..layout.mini_fat_cells() {
        let place = layout.mini_fat_cell(number)?;
        lines.extend(cell("mini FAT", number, word(before, place)?, word(after, place)?));
    }
    for number in 0..layout.entries() {
        let place = layout.entry(number)? + COLOUR;
        if before.get(place)? != after.get(place)? {
            lines.push(colour(number, &layout.name(number)?, *before.get(place)?));
        }
    }
    Some(lines)
}

/// A cell that is another one now: it is free, as a repair writes nothing else.
fn cell(table: &str, number: usize, before: u32, after: u32) -> Option<String> {
    (before != after).then(|| format!("{table} cell {number}: {} -> {}", value(before), value(after)))
}

fn colour(number: usize, name: &[u16], before: u8) -> String {
    let before = match before {
        0 => "red".to_string(),
        other => other.to_string(),
    };
    format!("entry {number} ({}): colour {before} -> black", printed(name))
}

/// A cell's value in words.
fn value(cell: u32) -> String {
    match cell {
        FREE => "free".to_string(),
        END => "end of chain".to_string(),
        FAT => "FAT sector".to_string(),
        DIFAT => "DIFAT sector".to_string(),
        number => number.to_string(),
    }
}
