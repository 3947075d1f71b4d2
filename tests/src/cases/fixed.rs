//! Cases on each side of the lines that the papers draw for lengths, the papers' own, and those of names, sizes, sectors, the
//! cutoff, objects, fresh images, repairs, entries read by their numbers, pulse streams, and versions.

use super::large::{MIB_8, MIB_64};
use super::{
    Case, cursor, cutoff, folding, fresh, names, new_names, object_lists, objects, papers, pulse, repair, sectors,
    siblings, sizes, versions,
};
use crate::geometry::{GREATEST_IMAGE, Geometry, V3, VERSIONS};
use crate::images::Sample;
use crate::images::plan::Plan;
use crate::random::Random;
use crate::volume::work_needed;

/// One after the other, since some are long.
pub fn run(then: &mut dyn FnMut(u64, Case)) {
    let mut number = 0;
    let mut next = |case| {
        then(number, case);
        number += 1;
    };
    for g in VERSIONS {
        smallest(g, &mut next);
        eight_mib(g, &mut next);
        greatest(g, &mut next);
        papers::cases(g).into_iter().for_each(&mut next);
        names::cases(g).into_iter().for_each(&mut next);
        sizes::cases(g).into_iter().for_each(&mut next);
        sectors::cases(g).into_iter().for_each(&mut next);
        cutoff::cases(g).into_iter().for_each(&mut next);
        objects::cases(g).into_iter().for_each(&mut next);
        new_names::cases(g).into_iter().for_each(&mut next);
        object_lists::cases(g).into_iter().for_each(&mut next);
        siblings::cases(g).into_iter().for_each(&mut next);
        fresh::run(g, &mut next);
        repair::cases(g).into_iter().for_each(&mut next);
        cursor::run(g, &mut next);
        pulse::run(g, &mut next);
    }
    folding::cases().into_iter().for_each(&mut next);
    versions::cases().into_iter().for_each(&mut next);
}

/// Nothing but a root, in so many sectors: the least FAT that covers them, the directory, and free sectors.
pub fn of_sectors(g: Geometry, sectors: u32) -> Vec<u8> {
    let plan = Plan { sectors: Some(sectors), ..Plan::of(g) };
    Sample::build(&plan, &mut Random::of(0, 0)).image
}

/// Of version 4 all lengths are refused that it does not have, though version 3 has them.
fn smallest(g: Geometry, next: &mut dyn FnMut(Case)) {
    let image = of_sectors(g, 2);
    assert_eq!(image.len(), if g == V3 { 1_536 } else { 12_288 });
    let short = [0, 1, 511, 512, 1_024, 1_535, 1_537, 2_047, 2_049];
    let of_3 = [1_536, 4_096, 7_680, 8_192, 8_704, 11_776, 12_800, 15_872];
    refused_lengths(g, &image, &short, &of_3, next);
    refused_lengths(g, &image, &[], &[8_191, 8_193, 12_287, 12_289, 16_383, 16_385], next);
    works(&image, next);
    broken_with_short_work(image, next);
}

/// 8 MiB was the longest once. The FAT has a cell for one sector more, and none for two.
fn eight_mib(g: Geometry, next: &mut dyn FnMut(Case)) {
    let image = of_sectors(g, g.count(MIB_8));
    assert_eq!(image.len(), 8_388_608);
    let of_3 = [8_384_000, 8_388_096, 8_389_120, 8_392_192];
    refused_lengths(g, &image, &[8_388_097, 8_388_607, 8_388_609], &of_3, next);
    works(&image, next);
    works(&of_sectors(g, g.count(MIB_8) + 1), next);
    for (more, answer) in [(1, 0), (2, 11), (8, 11)] {
        let image = resized(&image, MIB_8 + more * g.sector);
        next(case("sectors more", &image, work_needed(image.len()), answer));
    }
    let image = resized(&image, GREATEST_IMAGE);
    next(case("sectors more", &image, work_needed(image.len()), 11));
}

/// The FAT covers one sector more than the longest image has: that image is right but for its length. In version 3 it takes
/// 1,024 sectors, and the DIFAT 8.
fn greatest(g: Geometry, next: &mut dyn FnMut(Case)) {
    let image = of_sectors(g, g.count(MIB_64));
    assert_eq!((image.len(), GREATEST_IMAGE), (67_108_864, 67_108_864));
    works(&image, next);
    let of_neither = [67_108_353, 67_108_863, 67_108_865, 67_112_960, 134_217_728];
    refused_lengths(g, &image, &of_neither, &[67_105_280, 67_108_352, 67_109_376], next);
    refused(&of_sectors(g, g.count(MIB_64) + 1), MIB_64 + g.sector, next);
}

fn resized(image: &[u8], length: usize) -> Vec<u8> {
    let mut image = image.to_vec();
    image.resize(length, 0);
    image
}

/// Lengths that either version refuses, and more that version 4 does.
fn refused_lengths(g: Geometry, image: &[u8], either: &[usize], of_4: &[usize], next: &mut dyn FnMut(Case)) {
    let more = if g == V3 { &[] } else { of_4 };
    either.iter().chain(more).for_each(|&length| refused(image, length, next));
}

/// A length that is refused, with work buffers short and long: 1 comes before 2.
pub fn refused(image: &[u8], length: usize, next: &mut dyn FnMut(Case)) {
    let image = resized(image, length);
    for work_len in [0, 1, work_needed(length), work_needed(length) + 20] {
        next(case("length", &image, work_len, 1));
    }
}

fn works(image: &[u8], next: &mut dyn FnMut(Case)) {
    let needed = work_needed(image.len());
    assert_eq!(needed, 13 * image.len() / 512);
    for work_len in [0, 1, needed / 2, needed - 1] {
        next(case("work too short", image, work_len, 2));
    }
    for work_len in [needed, needed + 1, needed + 1_000, 2 * needed] {
        next(case("work long enough", image, work_len, 0));
    }
}

/// 2 comes before every group.
fn broken_with_short_work(mut image: Vec<u8>, next: &mut dyn FnMut(Case)) {
    let needed = work_needed(image.len());
    image[0] = 0;
    next(case("broken, work too short", &image, needed - 1, 2));
    next(case("broken, work long enough", &image, needed, 10));
}

fn case(kind: &str, image: &[u8], work_len: usize, expected: u32) -> Case {
    Case::new(kind, image.to_vec(), work_len, Some(expected))
}
