//! Names that are one name off from those of a listed path.

use crate::images::names::{self, Alphabet};
use crate::random::Random;

/// For each name of the path the path with another in its place; the path without each name; and with one more, before it
/// and behind it. Some of these may be listed too.
pub fn all(path: &[Vec<u16>], r: &mut Random) -> Vec<Vec<Vec<u16>>> {
    let mut found = Vec::new();
    for at in 0..path.len() {
        let mut other = path.to_vec();
        other[at] = near(&path[at], r);
        found.push(other);
        let mut without = path.to_vec();
        without.remove(at);
        found.push(without);
    }
    for (at, name) in [(0, path[0].clone()), (path.len(), path[path.len() - 1].clone()), (path.len(), any(r))] {
        let mut more = path.to_vec();
        more.insert(at, name);
        found.push(more);
    }
    found
}

fn any(r: &mut Random) -> Vec<u16> {
    let alphabet = r.pick(&Alphabet::ALL);
    names::random(r, alphabet)
}

/// A name that differs in a unit, often by as much as a letter does from its capital; in the order of two units; or by one
/// unit more or less. It is well formed, and not equal to the first as names are compared.
fn near(name: &[u16], r: &mut Random) -> Vec<u16> {
    loop {
        let mut other = name.to_vec();
        let at = r.index(other.len());
        match r.below(8) {
            0 => drop(other.remove(at)),
            1 => other.insert(at, other[at]),
            2 => other.reverse(),
            3 => other = any(r),
            _ => {
                let far = r.pick(&[1, 1, 0x20, 0x20, 0x50, 0x79, 0x100, 0x8000]);
                other[at] = r.pick(&[other[at].wrapping_add(far), other[at].wrapping_sub(far), other[at] ^ far]);
            }
        }
        let formed = (1..=31).contains(&other.len()) && !other.iter().any(|&unit| names::refused(unit));
        if formed && names::key(&other) != names::key(name) {
            return other;
        }
    }
}
