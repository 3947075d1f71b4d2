//! The images of the benchmark: many makes of them for validators, in both versions and at two lengths, one image for lists of
//! calls, and some with a long pulse stream.

pub mod broken;
pub mod good;
pub mod many;
pub mod mixed;
pub mod pulses;
pub mod worst;

use crate::cases::large::{MIB_8, MIB_64};
use crate::geometry::Geometry;
use crate::images::Sample;
use crate::images::plan::{Fill, Plan};
use crate::random::Random;

/// How long an image is, and how many times as much of everything it holds as one of 8 MiB.
#[derive(Clone, Copy)]
pub struct Size {
    pub mib: usize,
    bytes: usize,
    pub times: usize,
}

pub const SIZES: [Size; 2] = [Size { mib: 8, bytes: MIB_8, times: 1 }, Size { mib: 64, bytes: MIB_64, times: 8 }];

/// What the random parts of the images come from, if nothing else is asked for.
pub const SEED: u64 = 7;

/// What an image is made for.
#[derive(Clone, Copy)]
pub struct Scale {
    pub geometry: Geometry,
    pub size: Size,
    pub seed: u64,
}

impl Scale {
    /// N.
    fn sectors(&self) -> u32 {
        self.geometry.count(self.size.bytes)
    }

    /// As many as this in 8 MiB.
    fn many(&self, count: usize) -> usize {
        self.size.times * count
    }

    /// The sample that a plan gives, with noise where nothing is judged.
    fn build(&self, plan: Plan) -> Sample {
        let plan = Plan { fill: Fill::Noise, ..plan };
        Sample::build(&plan, &mut Random::of(self.seed, 7))
    }

    fn image(&self, plan: Plan) -> Vec<u8> {
        self.build(plan).image
    }
}

/// A make of images, with the answer that the papers give them.
pub struct Make {
    /// With a # for each of the numbers.
    name: &'static str,
    /// In 8 MiB.
    numbers: &'static [usize],
    pub answer: u32,
    pub image: fn(Scale) -> Vec<u8>,
}

const fn make(answer: u32, name: &'static str, numbers: &'static [usize], image: fn(Scale) -> Vec<u8>) -> Make {
    Make { name, numbers, answer, image }
}

impl Make {
    pub fn name(&self, size: Size) -> String {
        let texts = self.numbers.iter().map(|number| with_commas(number * size.times));
        texts.fold(self.name.to_string(), |name, text| name.replacen('#', &text, 1))
    }
}

fn with_commas(number: usize) -> String {
    let digits = number.to_string();
    let groups: Vec<&str> = digits.as_bytes().rchunks(3).rev().map(|group| str::from_utf8(group).unwrap()).collect();
    groups.join(",")
}

/// The good ones first.
pub fn makes() -> impl Iterator<Item = &'static Make> {
    [good::MAKES, broken::MAKES, worst::MAKES].into_iter().flatten()
}
