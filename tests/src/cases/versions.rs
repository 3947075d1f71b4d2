//! What tells the versions apart in the header (W-207): major version and sector shift, the bytes behind 511, and the count of
//! directory sectors.

use super::fixed::{of_sectors, refused};
use super::names::{calls, on, with_rows};
use super::{Case, objects};
use crate::breaks::edit::SIZE;
use crate::calls::Call;
use crate::geometry::{Geometry, V3, V4, VERSIONS};
use crate::images::plan::{Fill, Order, Plan};
use crate::images::{Sample, names};
use crate::number::*;
use crate::random::Random;
use crate::volume::work_needed;

pub fn cases() -> Vec<Case> {
    let mut cases = Vec::new();
    numbers(&mut cases);
    behind_header(&mut cases);
    for g in VERSIONS {
        directory_counts(g, &mut cases);
    }
    first_group(&mut cases);
    cases
}

/// A storage Site with a stream log of 10,000 bytes, scattered, and one of 70; so many more directory sectors than needed.
pub fn site(g: Geometry, spare_directory: u32) -> Sample {
    let order = Order::Scattered;
    let mut plan = Plan { fill: Fill::Noise, order, free: 3, spare_minis: 3, spare_directory, ..Plan::of(g) };
    let site = plan.add(0, names::of("Site"), None);
    plan.add(site, names::of("log"), Some(10_000));
    plan.add(site, names::of("Jets"), Some(70));
    Sample::build(&plan, &mut Random::of(0, 0))
}

/// Every call answers that this group is broken.
pub fn broken(sample: &Sample, group: u32, cases: &mut Vec<Case>) {
    cases.push(on(sample, Call::Validate, group));
    cases.push(on(sample, Call::List { out: vec![b'#'; 400] }, group));
    let all = calls(&names::of("Site/log")).into_iter().chain(objects::calls(&names::of("Site/new")));
    cases.extend(all.map(|call| on(sample, call, group)));
}

/// Only the right pair of major version and sector shift passes group 10. Only major version 4 asks for a length of version 4.
fn numbers(cases: &mut Vec<Case>) {
    let majors = [0, 1, 2, 3, 4, 5, 0x0103, 0x0104, 0x0300, 0x0400, 0x0403, 0x0304, 0x8004, 0xFFFF];
    let shifts = [0, 6, 8, 9, 10, 11, 12, 13, 0x0109, 0x010C, 0x0900, 0x0C00, 0xFFFF];
    // Both as long as an image of either version may be.
    let images = [(V3, of_sectors(V3, 23)), (V4, of_sectors(V4, 2)), (V3, of_sectors(V3, 39)), (V4, of_sectors(V4, 4))];
    for (g, image) in images {
        assert!(VERSIONS.iter().all(|g| g.length_allowed(image.len())));
        for (major, shift) in majors.into_iter().flat_map(|major| shifts.map(|shift| (major, shift))) {
            let answer = if (major, shift) == (g.major, g.shift) { 0 } else { 10 };
            let mut image = image.clone();
            put_u16(&mut image, 26, major);
            put_u16(&mut image, 30, shift);
            let work_len = work_needed(image.len());
            cases.push(Case::new("version", image.clone(), work_len, Some(answer)));
            cases.push(Case::new("version", image, work_len - 1, Some(2)));
        }
    }
    for sectors in [2, 7, 8, 15, 22, 24, 30, 32] {
        let mut image = of_sectors(V3, sectors);
        put_u16(&mut image, 26, 4);
        let length = image.len();
        refused(&image, length, &mut |case| cases.push(case));
        put_u16(&mut image, 30, 12);
        refused(&image, length, &mut |case| cases.push(case));
        for major in [0, 5, 0x0400, 0x0304] {
            put_u16(&mut image, 26, major);
            cases.push(Case::new("version", image.clone(), work_needed(length), Some(10)));
        }
    }
}

/// The bytes from 512 to 4,095 are the header's in version 4, and sector 0 and more in version 3.
fn behind_header(cases: &mut Vec<Case>) {
    for at in [512, 513, 514, 515, 1_023, 1_024, 2_047, 2_048, 3_583, 3_584, 4_092, 4_094, 4_095] {
        for byte in [1, 0x80, 0xFF] {
            let mut sample = site(V4, 0);
            sample.image[at] = byte;
            broken(&sample, 10, cases);
        }
    }
    let plan = Plan { fill: Fill::Noise, free: 20, order: Order::Falling, ..Plan::of(V3) };
    let mut image = Sample::build(&plan, &mut Random::of(0, 0)).image;
    for at in [512, 1_023, 4_095] {
        image[at] ^= 0xFF;
    }
    let work_len = work_needed(image.len());
    cases.push(Case::new("bytes of free sectors", image, work_len, Some(0)));
}

/// The field at 40 is the number of directory sectors in version 4, and zero in version 3.
fn directory_counts(g: Geometry, cases: &mut Vec<Case>) {
    for spare in [0, 1, 2, 6] {
        let sample = site(g, spare);
        let count = sample.layout.directory.len() as u32;
        assert_eq!(count, spare + 1);
        let right = if g == V4 { count } else { 0 };
        let entries = sample.layout.entry_count();
        let others =
            [0, 1, 2, 3, 4, 7, 8, 32, entries, count - 1, count, count + 1, 0x100, 0x1_0000, count << 16, END, FREE];
        for value in others.into_iter().chain([count + 0x0100_0000, count + 0x8000_0000]) {
            let mut sample = sample.clone();
            sample.put(40, value);
            match value == right {
                true => cases.push(with_rows(&sample, Call::Validate, 0)),
                false => broken(&sample, if g == V4 { 13 } else { 10 }, cases),
            }
        }
    }
}

/// The group that is broken, and how.
type Change = (u32, fn(&mut Sample));

/// Where two groups of version 4 are broken, the lower one is answered.
fn first_group(cases: &mut Vec<Case>) {
    let changes: [Change; 7] = [
        (10, |s| s.image[4_095] = 1),
        (11, |s| s.put(44, 0)),
        (12, |s| s.set_cell(s.layout.sectors, END)),
        (13, |s| s.put(40, 2)),
        (14, |s| s.set_field(1, SIZE + 4, 1)),
        (16, |s| s.set_field(0, SIZE + 4, 1)),
        (17, |s| s.set_field(2, SIZE + 4, 1)),
    ];
    for (i, &(lower, first)) in changes.iter().enumerate() {
        for &(_, second) in &changes[i..] {
            let mut sample = site(V4, 0);
            first(&mut sample);
            second(&mut sample);
            broken(&sample, lower, cases);
        }
    }
}
