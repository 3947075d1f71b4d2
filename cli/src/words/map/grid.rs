//! The grid of a picture: a cell for each sector, or for several.

use super::Map;
use super::legend::range;
use super::marks;
use super::shapes::{SWATCH, letter, rect, text};
use crate::reader::survey::{Kind, Use};
use std::fmt::Write;

/// So many cells there are at most; in a larger file each stands for several sectors.
const MOST_CELLS: usize = 200 * 200;
/// Where the grid starts, with room for the title above and the numbers at the left.
pub const LEFT: usize = 64;
pub const TOP: usize = 74;

/// How the sectors are laid out.
pub struct Grid {
    /// The sectors of a cell.
    pub sectors: usize,
    pub columns: usize,
    /// The side of a cell.
    side: usize,
    cells: Vec<Use>,
}

impl Grid {
    pub fn of(map: &Map) -> Grid {
        let uses = &map.survey.uses;
        let sectors = uses.len().div_ceil(MOST_CELLS).max(1);
        let worst = |part: &[Use]| part.iter().copied().max_by_key(|&used| badness(map, used)).unwrap_or(Use::Free);
        let cells: Vec<Use> = uses.chunks(sectors).map(worst).collect();
        let (columns, side) = match cells.len() {
            0..=2048 => (64, SWATCH),
            2049..=16384 => (128, 8),
            _ => (200, 6),
        };
        Grid { sectors, columns, side, cells }
    }

    fn rows(&self) -> usize {
        self.cells.len().div_ceil(self.columns).max(1)
    }

    pub fn right(&self) -> usize {
        LEFT + self.columns * self.side
    }

    pub fn bottom(&self) -> usize {
        TOP + self.rows() * self.side
    }

    pub fn draw(&self, svg: &mut String, map: &Map) {
        self.runs(svg, map);
        self.lattice(svg);
        self.numbers(svg);
        if self.side >= SWATCH {
            self.letters(svg, map);
        }
    }

    /// A rectangle for each run of one use in a row, which says what it is where the pointer rests on it.
    fn runs(&self, svg: &mut String, map: &Map) {
        for (row, uses) in self.cells.chunks(self.columns).enumerate() {
            let mut column = 0;
            for run in uses.chunk_by(|first, second| first == second) {
                let first = (row * self.columns + column) * self.sectors;
                let count = (run.len() * self.sectors).min(map.survey.uses.len() - first);
                let place = (LEFT + column * self.side, TOP + row * self.side, run.len() * self.side, self.side);
                let title = format!("{}: {}", range(first, count), map.use_title(run[0]));
                rect(svg, place, marks::of_use(run[0], &map.marks).colour.picture, &title);
                column += run.len();
            }
        }
    }

    /// White lines between the cells.
    fn lattice(&self, svg: &mut String) {
        let (right, bottom) = (self.right(), self.bottom());
        let mut path = String::new();
        for column in 0..=self.columns {
            let _ = write!(path, "M{} {TOP}V{bottom}", LEFT + column * self.side);
        }
        for row in 0..=self.rows() {
            let _ = write!(path, "M{LEFT} {}H{right}", TOP + row * self.side);
        }
        let _ = writeln!(
            svg,
            "<path d=\"{path}\" stroke=\"#ffffff\" stroke-width=\"1\" fill=\"none\" pointer-events=\"none\"/>"
        );
    }

    /// The number of a row's first sector, in every row that has the height of a line.
    fn numbers(&self, svg: &mut String) {
        for row in (0..self.rows()).step_by(SWATCH.div_ceil(self.side)) {
            let number = row * self.columns * self.sectors;
            let y = TOP + row * self.side + 11.min(self.side + 3);
            text(svg, (LEFT - 8, y), SIDE_NOTE, &number.to_string());
        }
    }

    fn letters(&self, svg: &mut String, map: &Map) {
        for (number, &used) in self.cells.iter().enumerate().filter(|(_, used)| **used != Use::Free) {
            let (column, row) = (number % self.columns, number / self.columns);
            let place = (LEFT + column * self.side, TOP + row * self.side);
            letter(svg, place, marks::of_use(used, &map.marks));
        }
    }
}

/// The style of what stands at the left of the grid.
pub const SIDE_NOTE: &str = " text-anchor=\"end\" font-size=\"10\" fill=\"#555555\"";

/// Which of a cell's sectors it is drawn as.
fn badness(map: &Map, used: Use) -> u32 {
    match used {
        Use::Shared(..) => 9,
        Use::Unowned => 8,
        Use::Owned(part) => match map.survey.parts[part].kind {
            Kind::Fat => 7,
            Kind::Difat => 6,
            Kind::Directory => 5,
            Kind::MiniFat => 4,
            Kind::MiniStream => 3,
            Kind::Stream(_) => 2,
        },
        Use::Free => 1,
    }
}
