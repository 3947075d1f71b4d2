//! What a run is asked to time.

use cfb_tests::bench::{Make, SEED, SIZES, Scale, makes};
use cfb_tests::geometry::VERSIONS;

pub struct Asked {
    /// In MiB; both if none is given, and so on.
    size: Option<usize>,
    version: Option<u16>,
    make: Option<usize>,
    seed: u64,
    rounds: Option<usize>,
}

impl Default for Asked {
    fn default() -> Asked {
        Asked { size: None, version: None, make: None, seed: SEED, rounds: None }
    }
}

impl Asked {
    pub fn read(words: &[&str]) -> Asked {
        let mut asked = Asked::default();
        for pair in words.chunks(2) {
            let &[word, number] = pair else { panic!("{} without a number", pair[0]) };
            let number: usize = number.parse().expect("a number");
            match word {
                "--size" => asked.size = Some(number),
                "--version" => asked.version = Some(number as u16),
                "--make" => asked.make = Some(number),
                "--seed" => asked.seed = number as u64,
                "--rounds" => asked.rounds = Some(number),
                _ => panic!("{word} is not known"),
            }
        }
        asked
    }

    /// Version by version, the short images first.
    pub fn scales(&self) -> impl Iterator<Item = Scale> + '_ {
        let all = SIZES.into_iter().flat_map(|size| VERSIONS.map(|geometry| (size, geometry)));
        all.filter(|(size, geometry)| {
            self.size.is_none_or(|mib| mib == size.mib) && self.version.is_none_or(|major| major == geometry.major)
        })
        .map(|(size, geometry)| Scale { geometry, size, seed: self.seed })
    }

    pub fn makes(&self) -> impl Iterator<Item = &'static Make> + '_ {
        makes().enumerate().filter(|(number, _)| self.make.is_none_or(|make| make == *number)).map(|(_, make)| make)
    }

    /// How often each copy of an image is validated.
    pub fn rounds(&self) -> usize {
        self.rounds.unwrap_or(10)
    }
}
