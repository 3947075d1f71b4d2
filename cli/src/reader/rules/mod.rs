//! The groups of rules, a file each. A check gives the first finding of its group. What it says counts where the groups
//! before it hold; it ends, and takes nothing for granted, where they do not.

pub mod cells;
pub mod directory;
pub mod fields;
pub mod header;
pub mod length;
pub mod mini;
pub mod owners;
pub mod streams;
pub mod tables;
pub mod trees;

mod chain;
mod kinds;
