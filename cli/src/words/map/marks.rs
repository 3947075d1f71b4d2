//! A letter and a colour for each use of a sector.

use crate::reader::survey::{Kind, Survey, Use};

/// How a use is drawn.
#[derive(Clone, Copy, PartialEq, Eq, Debug)]
pub struct Mark {
    pub letter: char,
    pub colour: Colour,
}

/// One colour, for a terminal of 256 colours and for a picture, and whether letters on it are white.
#[derive(Clone, Copy, PartialEq, Eq, Debug)]
pub struct Colour {
    pub terminal: u8,
    pub picture: &'static str,
    pub dark: bool,
}

const fn colour(terminal: u8, picture: &'static str, dark: bool) -> Colour {
    Colour { terminal, picture, dark }
}

pub const HEADER: Mark = Mark { letter: 'H', colour: colour(244, "#808080", true) };
pub const FREE: Mark = Mark { letter: '.', colour: colour(253, "#dadada", false) };
pub const UNOWNED: Mark = Mark { letter: '?', colour: colour(226, "#ffff00", false) };
pub const SHARED: Mark = Mark { letter: '!', colour: colour(196, "#ff0000", true) };

/// Letters and colours of the streams, again from the first when they are used up: 36 and 13 have no common divisor,
/// so it takes 468 streams until both are the same.
const LETTERS: &[u8; 36] = b"abcdefghijklmnopqrstuvwxyz0123456789";
const COLOURS: [Colour; 13] = [
    colour(71, "#5faf5f", false),
    colour(80, "#5fd7d7", false),
    colour(180, "#d7af87", false),
    colour(149, "#afd75f", false),
    colour(110, "#87afd7", false),
    colour(217, "#ffafaf", false),
    colour(29, "#00875f", true),
    colour(223, "#ffd7af", false),
    colour(66, "#5f8787", true),
    colour(157, "#afffaf", false),
    colour(137, "#af875f", false),
    colour(152, "#afd7d7", false),
    colour(65, "#5f875f", true),
];

/// The marks of a survey's parts, in their order.
pub fn of_parts(survey: &Survey) -> Vec<Mark> {
    let mut streams = LETTERS.iter().cycle().zip(COLOURS.iter().cycle());
    let mark = |letter, colour| Mark { letter, colour };
    let mut of_part = |kind| match kind {
        Kind::Fat => mark('F', colour(33, "#0087ff", true)),
        Kind::Difat => mark('X', colour(18, "#000087", true)),
        Kind::Directory => mark('D', colour(208, "#ff8700", false)),
        Kind::MiniFat => mark('T', colour(90, "#870087", true)),
        Kind::MiniStream => mark('M', colour(177, "#d787ff", false)),
        Kind::Stream(_) => streams.next().map_or(FREE, |(&letter, &colour)| mark(letter.into(), colour)),
    };
    survey.parts.iter().map(|part| of_part(part.kind)).collect()
}

/// The mark of a use.
pub fn of_use(used: Use, parts: &[Mark]) -> Mark {
    match used {
        Use::Free => FREE,
        Use::Unowned => UNOWNED,
        Use::Shared(..) => SHARED,
        Use::Owned(part) => parts.get(part).copied().unwrap_or(UNOWNED),
    }
}
