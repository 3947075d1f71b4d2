//! The map as a picture: a title, the grid, the legend, and what is shared or wrong.

use super::Map;
use super::grid::{Grid, LEFT, SIDE_NOTE, TOP};
use super::legend;
use super::marks;
use super::shapes::{cut, swatch, text, wrapped};
use crate::reader::number::counted;

/// The height of a line of text, and about the width of a letter.
const LINE: usize = 18;
const LETTER: usize = 7;
/// So many parts have a place in the legend, in so many columns.
const MOST_PARTS: usize = 95;
const COLUMNS: usize = 3;

pub fn draw(map: &Map) -> String {
    let grid = Grid::of(map);
    let width = (grid.right() + 24).max(760);
    let mut drawn = String::new();
    text(&mut drawn, (16, 26), " font-size=\"16\" font-weight=\"bold\"", &map.title);
    if grid.sectors > 1 {
        let note = format!("a cell stands for {} sectors, and shows the worst of them", grid.sectors);
        text(&mut drawn, (16, 44), "", &note);
    }
    text(&mut drawn, (LEFT - 8, TOP - 9), SIDE_NOTE, "header");
    swatch(&mut drawn, (LEFT, TOP - 20), marks::HEADER);
    grid.draw(&mut drawn, map);
    let bottom = draw_legend(&mut drawn, map, grid.bottom() + 28, width);
    let height = draw_wrong(&mut drawn, map, bottom, width) + 8;
    format!(
        "<svg xmlns=\"http://www.w3.org/2000/svg\" width=\"{width}\" height=\"{height}\" \
         viewBox=\"0 0 {width} {height}\" font-family=\"sans-serif\" font-size=\"12\">\n\
         <rect width=\"{width}\" height=\"{height}\" fill=\"#ffffff\"/>\n{drawn}</svg>\n"
    )
}

/// Column by column. Where it ends.
fn draw_legend(svg: &mut String, map: &Map, top: usize, width: usize) -> usize {
    let lines = legend::lines(map, MOST_PARTS);
    let rows = lines.len().div_ceil(COLUMNS).max(8);
    let column = (width - 32) / COLUMNS;
    for (number, line) in lines.iter().enumerate() {
        let (x, y) = (16 + number / rows * column, top + number % rows * LINE);
        let sectors = format!(": {}", counted(line.sectors, "sector"));
        let name = cut(&line.text, (column / LETTER).saturating_sub(4 + sectors.len()));
        swatch(svg, (x, y - 11), line.mark);
        text(svg, (x + 22, y), "", &(name + &sectors));
    }
    top + lines.len().min(rows) * LINE
}

/// What is shared, and what is wrong. Where it ends.
fn draw_wrong(svg: &mut String, map: &Map, top: usize, width: usize) -> usize {
    let mut y = top;
    for (title, lines) in [("shared", legend::shared(map)), ("what is wrong", map.wrong.clone())] {
        if lines.is_empty() {
            continue;
        }
        text(svg, (16, y + LINE), " font-weight=\"bold\"", title);
        y += 2 * LINE;
        for (number, line) in lines.iter().flat_map(|line| wrapped(line, (width - 48) / LETTER).into_iter().enumerate())
        {
            // the rest of a long line stands further in
            text(svg, (if number == 0 { 16 } else { 32 }, y), "", &line);
            y += LINE;
        }
    }
    y
}
