//! Images of either version with long tables: valid, broken in every rule of group 11, and mutated. Short ones, in which most
//! of the FAT is not needed, and long ones, in which all of it is.

use super::large::{MIB_64, many_streams};
use super::{Case, mutate};
use crate::breaks::{Break, of_tables, uses::Uses};
use crate::geometry::{Geometry, V3, V4};
use crate::images::Sample;
use crate::images::plan::{Fill, Order, Plan};
use crate::images::random_plan;
use crate::random::Random;
use crate::volume::work_needed;

/// What is made of one version.
struct Tables {
    geometry: Geometry,
    /// FAT sectors on each side of the lines at which a DIFAT sector more is needed; three images of each.
    fat_sectors: &'static [u32],
    /// The sectors of the long ones.
    sectors: &'static [u32],
    /// Every rule of group 11 has to be broken in an image with so many DIFAT sectors,
    difat_sectors: usize,
    /// but these, which cannot be.
    without: &'static [&'static str],
}

/// What is done with the kind of a case, its image and its answer.
type Next<'a> = dyn FnMut(&str, Vec<u8>, Option<u32>) + 'a;

const IMAGES: usize = 3;
const MUTATED: usize = 8;

/// In version 3 with 7, 8 and 9 DIFAT sectors, and as many as 64 MiB need. In version 4, where 64 MiB need none, with none, one
/// and two, and with FATs of 1 and of 15 sectors that have no cell to spare.
const TABLES: [Tables; 2] = [
    Tables {
        geometry: V3,
        fat_sectors: &[998, 999, 1_000, 1_024, 1_125, 1_126],
        sectors: &[1_023 * 128, V3.count(MIB_64)],
        difat_sectors: 8,
        without: &["D is 1 with F at most 109", "D is 0, field at 68 not end of chain"],
    },
    Tables {
        geometry: V4,
        fat_sectors: &[109, 110, 111, 1_132, 1_133, 1_134],
        sectors: &[1_024, 15 * 1_024, V4.count(MIB_64)],
        difat_sectors: 2,
        without: &["D is 1 with F at most 109", "D is 0, field at 68 not end of chain", "fewer cells than N"],
    },
];

/// Runs the cases. Gives the rules of group 11 that were not broken in an image with so many DIFAT sectors.
pub fn run(seed: u64, uses: &mut Uses, then: &mut dyn FnMut(u64, Case)) -> Vec<String> {
    let mut number = 0;
    let mut next = |kind: &str, image: Vec<u8>, expected: Option<u32>| {
        let work_len = work_needed(image.len());
        then(number, Case::new(kind, image, work_len, expected));
        number += 1;
    };
    let unused = TABLES.map(|tables| tables.run(seed, uses, &mut next));
    unused.concat()
}

impl Tables {
    fn run(&self, seed: u64, uses: &mut Uses, next: &mut Next) -> Vec<String> {
        let mut unused: Vec<&Break> = of_tables().iter().filter(|rule| !self.without.contains(&rule.rule)).collect();
        let short = self.fat_sectors.len() * IMAGES;
        for plan in 0..short + self.sectors.len() {
            let mut r = Random::of(seed.rotate_left(8), (self.geometry.major as u64 - 3) << 32 | plan as u64);
            let sample = self.sample(plan, &mut r);
            next("valid", sample.image.clone(), Some(0));
            for change in of_tables() {
                let mut broken = sample.clone();
                if change.apply(&mut broken, &mut r).is_some() {
                    uses.count(change, self.geometry);
                    unused.retain(|rule| rule.rule != change.rule || sample.layout.difat.len() != self.difat_sectors);
                    next(change.rule, broken.image, Some(change.expected));
                }
            }
            for _ in 0..if plan < short { MUTATED } else { 1 } {
                let mut mutated = sample.clone();
                let kind = mutate::mutate(&mut mutated, &mut r);
                next(&kind, mutated.image, None);
            }
        }
        let never = |rule: &&Break| format!("version {}: {}", self.geometry.major, rule.rule);
        unused.iter().map(never).collect()
    }

    fn sample(&self, plan: usize, r: &mut Random) -> Sample {
        let plan = match self.fat_sectors.get(plan / IMAGES) {
            Some(&fat) => random_plan::with_fat(r, self.geometry, fat),
            None => {
                let sectors = self.sectors[plan - self.fat_sectors.len() * IMAGES];
                let sizes = if sectors == 1_024 { [100_000, 100, 4_096, 65] } else { [1_000_000, 100, 4_096, 65] };
                let streams = many_streams(self.geometry, sectors, 20, &sizes);
                Plan { fill: Fill::Noise, order: Order::Scattered, mixed_parts: true, ..streams }
            }
        };
        Sample::build(&plan, r)
    }
}
