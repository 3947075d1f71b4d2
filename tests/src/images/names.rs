//! Names: their order as the papers state it, and random ones.

use super::letters::{self, IN_ORDER};
use crate::random::Random;

/// What names are ordered by: unit count, then the units with small letters taken as capitals.
pub fn key(name: &[u16]) -> (usize, Vec<u16>) {
    (name.len(), name.iter().map(|&unit| letters::capital(unit)).collect())
}

/// The name spelled otherwise: each letter in the other case, or only some.
pub fn respelled(name: &[u16], mut which: impl FnMut() -> bool) -> Vec<u16> {
    name.iter().map(|&unit| letters::other_case(unit).filter(|_| which()).unwrap_or(unit)).collect()
}

/// A name of 1 to 31 units, none of which is refused.
pub fn random(random: &mut Random, alphabet: Alphabet) -> Vec<u16> {
    let length = match random.below(4) {
        0 => random.between(1, 3),
        1 => random.between(1, 8),
        2 => random.between(1, 31),
        _ => random.pick(&[1, 2, 30, 31]),
    };
    (0..length).map(|_| alphabet.unit(random)).collect()
}

#[derive(Clone, Copy)]
pub enum Alphabet {
    /// Letters of both cases and the signs between and around them, so that many names nearly agree.
    Close,
    Printable,
    /// Letters of both cases, and the units around them.
    Northern,
    /// The same from the ends of their ranges alone, so that many names nearly agree.
    Ends,
    Any,
}

impl Alphabet {
    pub const ALL: [Alphabet; 5] =
        [Alphabet::Close, Alphabet::Printable, Alphabet::Northern, Alphabet::Ends, Alphabet::Any];

    fn unit(self, random: &mut Random) -> u16 {
        let close: Vec<u16> = "aAbBzZ@[_`{~".encode_utf16().collect();
        loop {
            let unit = match self {
                Alphabet::Close => random.pick(&close),
                Alphabet::Printable => random.between(0x20, 0x7E) as u16,
                Alphabet::Northern => northern(random),
                Alphabet::Ends => either_case(random.pick(&IN_ORDER), random),
                Alphabet::Any => random.word() as u16,
            };
            if !refused(unit) {
                return unit;
            }
        }
    }
}

/// A letter, seldom a unit near one.
fn northern(random: &mut Random) -> u16 {
    let letters: Vec<(u16, u16)> = letters::pairs().collect();
    let (small, _) = random.pick(&letters);
    let near = random.pick(&[0, 0, 0, 0, 0, 0, 1, u16::MAX]);
    either_case(small.wrapping_add(near), random)
}

fn either_case(unit: u16, random: &mut Random) -> u16 {
    letters::other_case(unit).filter(|_| random.one_in(2)).unwrap_or(unit)
}

/// The units that no name has.
pub const REFUSED: [u16; 5] = [0, b'/' as u16, b'\\' as u16, b':' as u16, b'!' as u16];

/// The units beside those, which a name may have; the last ones have one of those for a half.
pub const BESIDE: [u16; 19] = [
    0x01, 0x20, 0x22, 0x2E, 0x30, 0x39, 0x3B, 0x5B, 0x5D, 0x0100, 0x2100, 0x0121, 0x2F00, 0x012F, 0x3A00, 0x013A,
    0x5C00, 0x015C, 0x2121,
];

pub fn refused(unit: u16) -> bool {
    REFUSED.contains(&unit)
}

/// A name in printable ASCII.
pub fn of(text: &str) -> Vec<u16> {
    text.encode_utf16().collect()
}
