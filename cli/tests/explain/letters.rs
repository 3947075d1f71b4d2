//! The order of names: every pair of letters near the ranges that are folded.

use crate::compare::Seen;
use crate::images;
use crate::reader::volume::Volume;
use gyomrelas::{create_stream, path, work_need};

/// A letter of each range, its capital, and letters beside them.
const FIRST: [u16; 18] = [
    0x40, 0x41, 0x5A, 0x5F, 0x7B, 0xC0, 0xD7, 0xDE, 0xF7, 0x177, 0x178, 0x391, 0x3A2, 0x3A9, 0x3C2, 0x400, 0x40F, 0x42F,
];

#[test]
fn letters_are_ordered_as_the_library_does() {
    let mut image = images::fresh(3, 4_096, 3, 0);
    let mut work = vec![0; work_need(image.len())];
    for name in ["a", "b"] {
        create_stream(&mut image, &mut work, &path(name)).unwrap();
    }
    let places = [1, 2].map(|number| Volume::of(&image).entry(number).unwrap().place);
    let mut seen = Seen::default();
    for first in FIRST {
        for second in (0x20..0x480).chain([0xFFFE, 0xFFFF]) {
            image[places[0]..places[0] + 2].copy_from_slice(&first.to_le_bytes());
            image[places[1]..places[1] + 2].copy_from_slice(&u16::to_le_bytes(second));
            seen.compare(&format!("{first:04X} before {second:04X}"), &image);
        }
    }
    seen.report("letters");
    assert!([0, 14, 15].iter().all(|&answer| seen.count(answer) > 0));
}
