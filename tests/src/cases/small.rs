//! Random cases. Sixteen in a row share one valid image and change it in different ways.

use super::{Case, mutate};
use crate::breaks::{self, Break, uses::Uses};
use crate::geometry::V4;
use crate::images::Sample;
use crate::random::Random;
use crate::volume::{length_allowed, work_needed};

const SHARING: u64 = 16;

pub struct Cases {
    seed: u64,
    breaks: Vec<&'static Break>,
    pub uses: Uses,
    /// The valid image made last, with its number.
    base: Option<(u64, Sample)>,
}

impl Cases {
    pub fn new(seed: u64) -> Cases {
        Cases { seed, breaks: breaks::all(), uses: Uses::default(), base: None }
    }

    pub fn case(&mut self, number: u64) -> Case {
        let mut random = Random::of(self.seed, 2 * number);
        let sample = self.base(number / SHARING);
        self.changed(sample, number % SHARING, &mut random)
    }

    /// The valid image of this number.
    fn base(&mut self, number: u64) -> Sample {
        if self.base.as_ref().is_none_or(|(made, _)| *made != number) {
            let sample = Sample::random(&mut Random::of(self.seed, 2 * number + 1));
            self.base = Some((number, sample));
        }
        self.base.as_ref().expect("just made").1.clone()
    }

    /// The image changed as its role among those sharing it asks.
    pub fn changed(&mut self, mut s: Sample, role: u64, r: &mut Random) -> Case {
        match role {
            0 => case("valid", s, Some(0), r),
            1 => wrong_length(s, r),
            2..9 => {
                let used = self.use_break(&mut s, r);
                case(used.rule, s, Some(used.expected), r)
            }
            9 => {
                let first = self.use_break(&mut s, r).rule;
                let second =
                    if r.one_in(2) { self.use_break(&mut s, r).rule.into() } else { mutate::mutate(&mut s, r) };
                let kind = format!("{first}; then {second}");
                case(&kind, s, None, r)
            }
            _ => {
                let kind = mutate::mutate(&mut s, r);
                case(&kind, s, None, r)
            }
        }
    }

    /// Uses the first break, from a random one on, that the image has a place for.
    fn use_break(&mut self, s: &mut Sample, r: &mut Random) -> &'static Break {
        let count = self.breaks.len();
        let first = r.index(count);
        for i in (first..count).chain(0..first) {
            let mut changed = s.clone();
            if self.breaks[i].apply(&mut changed, r).is_some() {
                *s = changed;
                self.uses.count(self.breaks[i], s.layout.geometry);
                return self.breaks[i];
            }
        }
        unreachable!("the header can always be broken")
    }
}

/// Mostly exactly enough, often more, sometimes too few.
pub fn work_len(needed: usize, r: &mut Random) -> usize {
    match r.below(40) {
        0 => 0,
        1 => needed.saturating_sub(1),
        2 => r.index(needed),
        3..12 => needed + r.between(1, 100) as usize,
        _ => needed,
    }
}

/// 1 comes before 2, and both before what the image holds.
fn case(kind: &str, s: Sample, expected: Option<u32>, r: &mut Random) -> Case {
    let needed = work_needed(s.image.len());
    let work_len = work_len(needed, r);
    let expected = match length_allowed(&s.image) {
        false => Some(1),
        true if work_len < needed => Some(2),
        true => expected,
    };
    Case::new(kind, s.image, work_len, expected)
}

/// Lengths of neither version, and of version 4 those that only version 3 has.
fn wrong_length(mut s: Sample, r: &mut Random) -> Case {
    let (full, sector) = (s.image.len(), s.layout.geometry.sector);
    let below = sector * r.index(full / sector);
    let within = below + r.between(1, sector as u32 - 1) as usize;
    let near = [full - 1, full + 1, full - 511, full + 511, full - sector + 1, full + sector - 1, within];
    let short = [0, 1, 511, 512, 1_024, 1_535, 1_537];
    let of_version_3 = [1_536, 4_096, 8_192, 11_776, 12_800, full - 512, full + 512, below + 512, below + 3_584];
    let length = match r.below(3) {
        0 => r.pick(&short),
        1 if s.layout.geometry == V4 => r.pick(&of_version_3),
        _ => r.pick(&near),
    };
    s.image.resize(length, r.byte());
    case("wrong length", s, Some(1), r)
}
