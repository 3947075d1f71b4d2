//! A plain reader of compound files. It decides nothing (the library does): it explains where a refused file breaks a
//! rule, and says which sector belongs to whom, of accepted and of refused files. It holds whatever the bytes are:
//! every loop is bounded by the file's length, and nothing recurses.

pub mod chains;
pub mod entry;
pub mod explain;
pub mod finding;
pub mod findings;
pub mod geometry;
pub mod header;
pub mod image;
pub mod names;
pub mod number;
pub mod paths;
pub mod rules;
pub mod survey;
pub mod tables;
pub mod volume;

pub use explain::explain;
pub use finding::Finding;
