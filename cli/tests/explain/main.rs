//! The reader's findings compared with the library's answers: they must name the same group for every file.

#[allow(dead_code)]
#[path = "../../src/reader/mod.rs"]
mod reader;

mod aimed;
mod compare;
mod damage;
mod drawn;
mod every_byte;
mod images;
mod letters;
mod random;
mod variants;
