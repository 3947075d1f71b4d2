//! The two versions (W-207).

use crate::breaks::{self, edit::UPPER};
use crate::calls::{Call, perform};
use crate::cases::sectors;
use crate::cases::versions::{cases, site};
use crate::compare::Tally;
use crate::geometry::{GREATEST_IMAGE, V3, V4, VERSIONS};
use crate::images::{Sample, names, plan::Plan, random_plan};
use crate::number::*;
use crate::random::Random;
use crate::volume::{Volume, tables::difat_needed, validate, version, work_needed};
use std::collections::HashSet;

#[test]
fn cases_of_versions() {
    let mut tally = Tally::new();
    let of_sectors = VERSIONS.into_iter().flat_map(sectors::cases);
    for (number, case) in cases().into_iter().chain(of_sectors).enumerate() {
        assert!(tally.run(&format!("case {number}"), &case).is_some());
    }
    assert!(tally.passed > 3_000, "{}", tally.passed);
}

/// What a geometry states is what follows from the sector's bytes.
#[test]
fn geometries_of_the_papers() {
    for g in VERSIONS {
        assert_eq!(1 << g.shift, g.sector);
        assert_eq!(g.cells * 4, g.sector);
        assert_eq!((g.difat + 1) * 4, g.sector);
        assert_eq!(g.entries * ENTRY, g.sector);
        assert_eq!(g.minis as u64 * MINI_SECTOR, g.sector as u64);
        assert_eq!(g.least_image, 3 * g.sector);
        assert_eq!(g.count(g.least_image), 2);
    }
    assert_eq!([V3.place(0), V3.place(5), V4.place(0), V4.place(5)], [512, 3_072, 4_096, 24_576]);
    assert_eq!([109, 110, 1_132, 1_133].map(|fat| difat_needed(V4, fat)), [0, 1, 1, 2]);
    assert_eq!([V3.count(GREATEST_IMAGE), V4.count(GREATEST_IMAGE)], [131_071, 16_383]);
}

#[test]
fn lengths_of_version_4() {
    let allowed = |length| V4.length_allowed(length);
    assert_eq!([12_288, 16_384, 8_388_608, 67_108_864].map(allowed), [true; 4]);
    assert_eq!([0, 4_096, 8_192, 12_287, 12_289, 12_800, 67_104_769, 67_112_960].map(allowed), [false; 8]);
    assert_eq!(work_needed(12_288), 312);
}

/// The smallest image of version 4, byte by byte: a FAT sector, a directory sector, and nothing but a root.
fn smallest() -> Vec<u8> {
    let mut image = vec![0; 12_288];
    image[..8].copy_from_slice(&[0xD0, 0xCF, 0x11, 0xE0, 0xA1, 0xB1, 0x1A, 0xE1]);
    image[24] = 0x3E;
    image[26] = 4;
    image[28..30].copy_from_slice(&[0xFE, 0xFF]);
    image[30] = 12;
    image[32] = 6;
    image[40] = 1; // directory sectors
    image[44] = 1; // FAT sectors
    image[48] = 1; // first directory sector
    image[57] = 0x10; // cutoff
    image[60..64].copy_from_slice(&[0xFE, 0xFF, 0xFF, 0xFF]);
    image[68..72].copy_from_slice(&[0xFE, 0xFF, 0xFF, 0xFF]);
    image[80..512].fill(0xFF);
    image[4_096..8_192].fill(0xFF);
    image[4_096] = 0xFD;
    image[4_100] = 0xFE;
    for entry in (8_192..12_288).step_by(128) {
        image[entry + 68..entry + 80].fill(0xFF);
    }
    image[8_192 + 66] = 5;
    image[8_192 + 67] = 1;
    image[8_192 + 116..8_192 + 120].copy_from_slice(&[0xFE, 0xFF, 0xFF, 0xFF]);
    image
}

#[test]
fn smallest_image_of_version_4() {
    let image = smallest();
    assert_eq!((validate(&image, 312), validate(&image, 311)), (0, 2));
    let volume = Volume::open(&image).expect("a valid image");
    assert_eq!((volume.geometry, volume.directory.count(), volume.tables.cells.len()), (V4, 32, 1_024));
    let mut sample = Sample::build(&Plan::of(V4), &mut Random::of(0, 0)).image;
    sample[24] = 0x3E;
    sample[8_192 + 67] = 1;
    assert!(sample == image);
}

/// Lengths are judged before the work buffer and before the groups, and by the version that stands in the image.
#[test]
fn answer_1_by_the_version() {
    for (length, answers) in [(8_192, [1, 1]), (12_287, [1, 1]), (12_800, [1, 1]), (12_289, [1, 1]), (16_384, [0, 2])] {
        let mut image = smallest();
        image.resize(length, 0);
        let needed = work_needed(length);
        assert_eq!([validate(&image, needed), validate(&image, needed - 1)], answers, "{length}");
    }
    // The same lengths are right where no version 4 is said, and group 10 is broken.
    for (length, answer) in [(8_192, 10), (12_287, 1), (12_800, 10), (12_288, 10)] {
        for major in [3, 0, 5, 0x400] {
            let mut image = smallest();
            put_u16(&mut image, 26, major);
            image.resize(length, 0);
            assert_eq!((version(&image), validate(&image, work_needed(length))), (V3, answer));
        }
    }
}

/// A size is read in full, and written in full.
#[test]
fn sizes_of_version_4() {
    let mut sample = site(V4, 0);
    let entry = sample.layout.nodes[2].entry;
    let set_length = |image: &mut [u8], length| {
        let call = Call::SetLength { path: names::of("Site/log"), length };
        perform(&call, image, work_needed(image.len())).answer
    };
    assert_eq!(set_length(&mut sample.image, 12_289), 0);
    assert_eq!(u64_at(&sample.image, sample.layout.entry(entry) + 120), 12_289);
    assert_eq!(set_length(&mut sample.image, (1 << 32) + 12_289), 26);
    sample.set_field(entry, UPPER, 1);
    assert_eq!(validate(&sample.image, work_needed(sample.image.len())), 17);
    let upper = sample.layout.entry(0) + UPPER;
    sample.image[upper] = 1;
    assert_eq!(validate(&sample.image, work_needed(sample.image.len())), 16);
}

/// Random images are of both versions, about as many of each, and as valid as their plans are.
#[test]
fn versions_of_random_images() {
    let mut seen = [0; 2];
    for number in 0..2_000 {
        let mut r = Random::of(8, number);
        let plan = if number % 2 == 0 { random_plan::plan(&mut r) } else { random_plan::scarce(&mut r) };
        let sample = Sample::build(&plan, &mut r);
        assert_eq!(validate(&sample.image, work_needed(sample.image.len())), 0, "image {number}");
        assert_eq!(version(&sample.image), plan.geometry);
        seen[(plan.geometry == V4) as usize] += 1;
    }
    assert!(seen.iter().all(|&count| count > 900), "{seen:?}");
}

/// Each change has its own name and gets the answer that it states, on images of each version that it is for.
#[test]
fn changes_of_both_versions() {
    let names: HashSet<&str> = breaks::all().iter().map(|change| change.rule).collect();
    assert_eq!(names.len(), breaks::all().len());
    let mut used: HashSet<(u16, &str)> = HashSet::new();
    for number in 0..1_200 {
        let mut r = Random::of(9, number);
        let sample = Sample::random(&mut r);
        if sample.image.len() > 1_000_000 {
            continue;
        }
        for change in breaks::all() {
            let mut changed = sample.clone();
            if change.apply(&mut changed, &mut r).is_some() {
                used.insert((sample.layout.geometry.major, change.rule));
                let answer = validate(&changed.image, work_needed(changed.image.len()));
                assert_eq!(answer, change.expected, "image {number}: {}", change.rule);
            }
        }
    }
    let due = VERSIONS.into_iter().flat_map(|g| breaks::all().into_iter().map(move |change| (g, change)));
    let missing: Vec<(u16, &str)> = due
        .filter(|(g, change)| change.is_of(*g))
        .map(|(g, change)| (g.major, change.rule))
        .filter(|rule| !used.contains(rule))
        .collect();
    // These need an image of 4 MiB in version 4.
    assert_eq!(missing, [(4, "fewer cells than N"), (4, "DIFAT link in the middle")]);
}
