//! What a listing says, read back, and what it tells of any path: nothing here looks at an image.

pub mod off;
pub mod reader;

#[cfg(test)]
mod checks;

use crate::images::names;
use crate::volume::entry::STREAM;
use reader::Object;
use std::collections::BTreeMap;

const SLASH: u16 = b'/' as u16;

/// The names as they are compared.
type Key = Vec<(usize, Vec<u16>)>;

/// The listed objects by their names.
pub struct Listed {
    pub objects: Vec<Object>,
    by_names: BTreeMap<Key, usize>,
}

impl Listed {
    /// The objects of a listing, if their paths rise strictly, name by name, a path before all that is below it.
    pub fn read(text: &[u8]) -> Result<Listed, String> {
        let objects = reader::read(text)?;
        let keys: Vec<Key> = objects.iter().map(|object| key(&object.path)).collect();
        if let Some(at) = keys.windows(2).position(|two| two[0] >= two[1]) {
            return Err(format!("lines {} and {} do not rise", at + 2, at + 3));
        }
        let by_names = keys.into_iter().zip(0..).collect();
        Ok(Listed { objects, by_names })
    }

    pub fn object(&self, names: &[Vec<u16>]) -> Option<&Object> {
        self.by_names.get(&key(names)).map(|&number| &self.objects[number])
    }

    /// What a find of well-formed names must answer: 0 for the root and for what is listed; else 22 where a stream is listed
    /// under a beginning of them that is all there is, and 21.
    pub fn answer(&self, names: &[Vec<u16>]) -> u32 {
        for count in 1..=names.len() {
            match self.object(&names[..count]) {
                None => return 21,
                Some(object) if object.kind == STREAM && count < names.len() => return 22,
                Some(_) => {}
            }
        }
        0
    }
}

fn key(names: &[Vec<u16>]) -> Key {
    names.iter().map(|name| names::key(name)).collect()
}

/// The names as a path.
pub fn path(names: &[Vec<u16>]) -> Vec<u16> {
    names.join(&SLASH)
}
