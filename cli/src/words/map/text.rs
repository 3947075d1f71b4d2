//! The map as text: rows of 64 sectors, and the legend.

use super::Map;
use super::legend;
use super::marks::{self, Mark};
use crate::reader::survey::Use;

/// The sectors of a row.
const ROW: usize = 64;
/// So many parts have a line of their own in the legend.
const MOST_PARTS: usize = 205;

/// The whole text, in colour or plain.
pub fn draw(map: &Map, coloured: bool) -> String {
    let mut text = format!("{}\n\n", map.title);
    text += &format!("  header  {}\n", painted(&[marks::HEADER], coloured));
    rows(map, coloured, &mut text);
    text.push('\n');
    for line in legend::lines(map, MOST_PARTS) {
        text += &format!("  {} {:>7}  {}\n", painted(&[line.mark], coloured), line.sectors, line.text);
    }
    section("in the mini stream:", &legend::small(map), &mut text);
    section("shared:", &legend::shared(map), &mut text);
    section("what is wrong:", &map.wrong, &mut text);
    text
}

fn section(title: &str, lines: &[String], text: &mut String) {
    if !lines.is_empty() {
        *text += &format!("\n{title}\n");
    }
    for line in lines {
        *text += &format!("  {line}\n");
    }
}

/// Rows that are like the one before them are folded.
fn rows(map: &Map, coloured: bool, text: &mut String) {
    let rows: Vec<&[Use]> = map.survey.uses.chunks(ROW).collect();
    let mut number = 0;
    for alike in rows.chunk_by(|first, second| first == second) {
        let marks: Vec<Mark> = alike[0].iter().map(|&used| marks::of_use(used, &map.marks)).collect();
        *text += &format!("{:>8}  {}\n", number * ROW, painted(&marks, coloured));
        if alike.len() > 1 {
            let last = (number + alike.len()) * ROW - 1;
            *text += &format!("       *  the same up to sector {last}\n");
        }
        number += alike.len();
    }
}

/// The letters, each run of a colour between its codes.
fn painted(marks: &[Mark], coloured: bool) -> String {
    let mut text = String::new();
    for run in marks.chunk_by(|first, second| first.colour == second.colour) {
        let letters: String = run.iter().map(|mark| mark.letter).collect();
        let colour = run[0].colour;
        let ink = if colour.dark { 231 } else { 16 };
        text += &match coloured {
            true => format!("\x1b[38;5;{ink};48;5;{}m{letters}\x1b[0m", colour.terminal),
            false => letters,
        };
    }
    text
}
