//! What a find gives.

#![forbid(unsafe_code)]

/// What a path leads to.
#[derive(Clone, Copy, PartialEq, Eq, Debug)]
pub struct Entry {
    /// Its number in the directory. The root is 0. An object keeps it as long as it is there, whatever is done to others.
    pub number: u32,
    /// What it is.
    pub kind: Kind,
    /// Of a stream its length in bytes; of a storage 0; of the root the length of the stream that holds all small streams.
    /// In version 3 it is the lower half of the eight bytes that the file has for it, as older programs left anything in
    /// the upper one; in version 4 it is all of them.
    pub size: u64,
}

/// What an entry is.
#[derive(Clone, Copy, PartialEq, Eq, Debug)]
pub enum Kind {
    /// Holds storages and streams.
    Storage,
    /// Holds bytes.
    Stream,
    /// The storage that holds all others.
    Root,
}

impl Kind {
    /// The kind of a type field: only these three are ever found.
    pub(crate) fn of(field: u32) -> Kind {
        match field {
            1 => Kind::Storage,
            2 => Kind::Stream,
            5 => Kind::Root,
            _ => panic!("the linked library found an entry of type {field}, which is none"),
        }
    }
}
