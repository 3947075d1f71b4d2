//! The shapes that a picture is made of.

use super::marks::Mark;
use std::fmt::Write;

/// The side of a cell that has a letter in it.
pub const SWATCH: usize = 14;

/// A rectangle: left, top, width, height. Where it has a title, that shows when the pointer rests on it.
pub fn rect(svg: &mut String, (x, y, width, height): (usize, usize, usize, usize), fill: &str, title: &str) {
    let _ = write!(svg, "<rect x=\"{x}\" y=\"{y}\" width=\"{width}\" height=\"{height}\" fill=\"{fill}\"");
    let _ = match title {
        "" => writeln!(svg, "/>"),
        title => writeln!(svg, "><title>{}</title></rect>", escaped(title)),
    };
}

pub fn text(svg: &mut String, (x, y): (usize, usize), style: &str, words: &str) {
    let _ = writeln!(svg, "<text x=\"{x}\" y=\"{y}\"{style}>{}</text>", escaped(words));
}

/// A mark's letter in its cell.
pub fn letter(svg: &mut String, (x, y): (usize, usize), mark: Mark) {
    let ink = if mark.colour.dark { "#ffffff" } else { "#000000" };
    let style = format!(" text-anchor=\"middle\" font-size=\"10\" fill=\"{ink}\" pointer-events=\"none\"");
    text(svg, (x + SWATCH / 2, y + 11), &style, &mark.letter.to_string());
}

/// A mark as one cell.
pub fn swatch(svg: &mut String, (x, y): (usize, usize), mark: Mark) {
    rect(svg, (x, y, SWATCH, SWATCH), mark.colour.picture, "");
    letter(svg, (x, y), mark);
}

/// Text for XML: its own characters become names, and what it cannot hold is left out.
fn escaped(text: &str) -> String {
    let mut escaped = String::new();
    for c in text.chars() {
        match c {
            '&' => escaped += "&amp;",
            '<' => escaped += "&lt;",
            '>' => escaped += "&gt;",
            '"' => escaped += "&quot;",
            c if c.is_control() || matches!(c, '\u{FFFE}' | '\u{FFFF}') => escaped.push('?'),
            c => escaped.push(c),
        }
    }
    escaped
}

/// A text in lines of at most so many letters, but for longer words, cut between words.
pub fn wrapped(text: &str, most: usize) -> Vec<String> {
    let mut lines = vec![String::new()];
    for word in text.split(' ') {
        let line = lines.last_mut().filter(|line| line.chars().count() + word.chars().count() < most);
        match line {
            Some(line) if line.is_empty() => line.push_str(word),
            Some(line) => *line += &format!(" {word}"),
            None => lines.push(word.into()),
        }
    }
    lines
}

/// A text of at most so many letters, with dots where it was cut.
pub fn cut(text: &str, most: usize) -> String {
    if text.chars().count() <= most {
        return text.into();
    }
    text.chars().take(most.saturating_sub(2)).chain("..".chars()).collect()
}
