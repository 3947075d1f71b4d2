//! Images made by the library alone, for other programs to read: a fresh image, and then its streams and storages.

pub mod images;
mod made;

pub use made::Made;
