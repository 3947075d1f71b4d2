//! Tests of the compound-file library by an independent implementation.

pub mod bench;
pub mod breaks;
pub mod calls;
pub mod cases;
pub mod compare;
pub mod draw;
pub mod effects;
pub mod files;
pub mod geometry;
pub mod groups;
pub mod images;
pub mod listed;
pub mod model;
pub mod number;
pub mod random;
pub mod rival;
pub mod volume;

#[cfg(feature = "library")]
pub mod library;

#[cfg(feature = "fresh")]
pub mod peers;

#[cfg(test)]
mod checks;
