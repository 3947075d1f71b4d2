//! The objects of a volume, from its listing.

#![forbid(unsafe_code)]

use std::fmt;
use std::iter::FusedIterator;

use crate::{Kind, Refusal};

/// A stream or a storage of a volume.
#[derive(Clone, PartialEq, Eq, Debug)]
pub struct Object {
    /// Its whole path from the root, in the units that every call takes: it is found by this path, whatever its name.
    pub path: Vec<u16>,
    /// A storage or a stream; never the root.
    pub kind: Kind,
    /// Of a stream its length in bytes; of a storage 0.
    pub size: u64,
}

/// All streams and storages of a volume, as they were when they were asked for: a storage before all that is below it.
///
/// It holds the listing, and reads an object off it when it comes to it.
pub struct Objects {
    listing: String,
    /// Where the next line starts.
    at: usize,
    /// How many lines there still are.
    left: usize,
}

impl Objects {
    /// The longest listing in bytes that is tried where no other bound is given. A file can be made whose listing takes
    /// gigabytes; one whose storages are not deeply nested stays far below this.
    pub const MOST: usize = 1 << 26;

    /// The objects of the listing that a call writes to an out buffer. The buffer is made longer until the listing fits.
    pub(crate) fn listed(
        most: usize,
        mut list: impl FnMut(&mut [u8]) -> Result<usize, Refusal>,
    ) -> Result<Objects, Refusal> {
        let mut length = most.min(4096);
        loop {
            let mut out = vec![0; length];
            match list(&mut out) {
                Ok(count) => {
                    out.truncate(count);
                    return Ok(Objects::of(out));
                }
                Err(Refusal::OutTooShort) if length < most => length = most.min(length.saturating_mul(2)),
                Err(refusal) => return Err(refusal),
            }
        }
    }

    /// The objects of a listing.
    fn of(listing: Vec<u8>) -> Objects {
        let listing = String::from_utf8(listing).expect("a listing is ASCII");
        let mut objects = Objects { listing, at: 0, left: 0 };
        let first = objects.line().strip_prefix("objects ").and_then(|count| count.parse().ok());
        objects.left = first.expect("the first line of a listing has the number of objects");
        objects
    }

    /// The next line.
    fn line(&mut self) -> &str {
        let (line, _) = self.listing[self.at..].split_once('\n').expect("a listing has a line for each object");
        self.at += line.len() + 1;
        line
    }
}

impl Iterator for Objects {
    type Item = Object;

    fn next(&mut self) -> Option<Object> {
        self.left = self.left.checked_sub(1)?;
        Some(object(self.line()).expect("a line of a listing has a kind, a size and a path"))
    }

    fn size_hint(&self) -> (usize, Option<usize>) {
        (self.left, Some(self.left))
    }
}

impl ExactSizeIterator for Objects {}

impl FusedIterator for Objects {}

impl fmt::Debug for Objects {
    fn fmt(&self, f: &mut fmt::Formatter<'_>) -> fmt::Result {
        f.debug_struct("Objects").field("left", &self.left).finish_non_exhaustive()
    }
}

/// The object of a line: its letter, its size and its path, which may have spaces.
fn object(line: &str) -> Option<Object> {
    let (letter, rest) = line.split_once(' ')?;
    let (size, path) = rest.split_once(' ')?;
    let kind = match letter {
        "D" => Kind::Storage,
        "F" => Kind::Stream,
        _ => return None,
    };
    Some(Object { path: units(path)?, kind, size: size.parse().ok()? })
}

/// The units that a text stands for. A `\` with four digits of base 16 is a unit that does not print. It stands for nothing
/// else, since no name has a `\`.
fn units(text: &str) -> Option<Vec<u16>> {
    let mut parts = text.split('\\');
    let mut units: Vec<u16> = parts.next()?.encode_utf16().collect();
    for part in parts {
        let (digits, rest) = part.split_at_checked(4)?;
        units.push(u16::from_str_radix(digits, 16).ok()?);
        units.extend(rest.encode_utf16());
    }
    Some(units)
}

#[cfg(test)]
mod tests {
    use super::{Objects, Refusal};

    #[test]
    fn the_out_buffer_is_made_longer_until_the_listing_fits() {
        let mut listing = b"objects 1000\n".to_vec();
        listing.extend((0..1000).flat_map(|number| format!("F {number} Dir/stream {number}\n").into_bytes()));
        let list = |out: &mut [u8]| {
            let out = out.get_mut(..listing.len()).ok_or(Refusal::OutTooShort)?;
            out.copy_from_slice(&listing);
            Ok(out.len())
        };
        for most in [listing.len(), Objects::MOST, usize::MAX] {
            let objects = Objects::listed(most, list).expect("long enough");
            assert_eq!(objects.len(), 1000);
            assert!(objects.map(|object| object.size).eq(0..1000));
        }
        assert_eq!(Objects::listed(listing.len() - 1, list).err(), Some(Refusal::OutTooShort));
    }
}
