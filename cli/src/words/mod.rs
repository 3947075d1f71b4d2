//! A file for each word of the command. `main` has the table of them.

pub mod append;
pub mod cat;
pub mod check;
pub mod explain;
pub mod extract;
pub mod info;
pub mod ls;
pub mod map;
pub mod mk;
pub mod mkdir;
pub mod new;
pub mod pulse;
pub mod pulses;
pub mod put;
pub mod repair;
pub mod resize;
pub mod rm;
