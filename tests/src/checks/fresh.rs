//! Fresh images (W-209).

use crate::calls::format::Fresh;
use crate::calls::{ANSWERS, Call, perform};
use crate::cases::fresh;
use crate::compare::Tally;
use crate::draw;
use crate::geometry::{Geometry, V3, V4, VERSIONS};
use crate::images::plan::Plan;
use crate::images::{Sample, names, write};
use crate::number::*;
use crate::random::Random;
use crate::volume::{Volume, validate, work_needed};

#[test]
fn cases_of_fresh_images() {
    let mut tally = Tally::new();
    for g in VERSIONS {
        let mut number = 0;
        fresh::run(g, &mut |case| {
            assert!(tally.run(&format!("case {number}"), &case).is_some());
            number += 1;
        });
    }
    tally.ask_for_every_answer(&ANSWERS[9..10]);
    assert!(tally.passed > 1_500 && tally.failed == 0, "{}", tally.passed);
}

fn formatted(asked: Fresh) -> Vec<u8> {
    let mut image = fresh::noise(asked.geometry().image_len(asked.sectors as u32));
    assert_eq!(perform(&Call::Format(asked), &mut image, 0).answer, 0, "{asked:?}");
    image
}

/// The smallest image of version 3, byte by byte: a FAT sector, a directory sector, and nothing but a root.
#[test]
fn bytes_of_the_smallest() {
    let mut due = vec![0; 1_536];
    due[..8].copy_from_slice(&[0xD0, 0xCF, 0x11, 0xE0, 0xA1, 0xB1, 0x1A, 0xE1]);
    due[24..34].copy_from_slice(&[0x3E, 0, 3, 0, 0xFE, 0xFF, 9, 0, 6, 0]);
    due[44] = 1; // FAT sectors
    due[48] = 1; // first directory sector
    due[57] = 0x10; // cutoff
    due[60..64].copy_from_slice(&[0xFE, 0xFF, 0xFF, 0xFF]);
    due[68..72].copy_from_slice(&[0xFE, 0xFF, 0xFF, 0xFF]);
    due[80..512].fill(0xFF);
    due[512..1_024].fill(0xFF);
    due[512] = 0xFD;
    due[516] = 0xFE;
    due[1_024..1_044].copy_from_slice(b"R\0o\0o\0t\0 \0E\0n\0t\0r\0y\0");
    due[1_088..1_092].copy_from_slice(&[22, 0, 5, 1]);
    for entry in (1_024..1_536).step_by(128) {
        due[entry + 68..entry + 80].fill(0xFF);
    }
    due[1_140..1_144].copy_from_slice(&[0xFE, 0xFF, 0xFF, 0xFF]);
    assert!(formatted(fresh::asked(V3, 2, 1, 0, 0)) == due);
}

/// Where K is 0 the root's start is end of chain, whatever the mini FAT; where it is not, the mini stream follows the mini FAT.
#[test]
fn starts() {
    for (mini_fat, minis, first_mini_fat, start) in [(0, 0, END, END), (2, 0, 3, END), (2, 9, 3, 5)] {
        let image = formatted(fresh::asked(V4, 30, 2, mini_fat, minis));
        let root = V4.place(1);
        assert_eq!(u32_at(&image, 60), first_mini_fat);
        assert_eq!((u32_at(&image, root + 116), u64_at(&image, root + 120)), (start, 64 * minis));
    }
}

/// The papers' values of F and D, and the longest images.
#[test]
fn tables_of_the_papers() {
    let tables = |g: Geometry, sectors: u64| {
        let image = formatted(fresh::asked(g, sectors, 1, 0, 0));
        (u32_at(&image, 44), u32_at(&image, 72))
    };
    let lines = [13_952, 13_953, 30_208, 30_209, 131_071].map(|sectors| tables(V3, sectors));
    assert_eq!(lines, [(109, 0), (110, 1), (236, 1), (237, 2), (1_024, 8)]);
    assert_eq!([1_024, 1_025, 16_383].map(|sectors| tables(V4, sectors)), [(1, 0), (2, 0), (16, 0)]);
}

/// The plainest sample with the root's name, its colour and the minor version put in; mini FAT sectors are all that K needs, or more.
#[test]
fn fresh_images_agree_with_samples() {
    let mut agreed = 0;
    for number in 0..2_000 {
        let mut r = Random::of(12, number);
        let g = VERSIONS[number as usize % 2];
        let bytes = g.image_len(r.between(2, 300));
        let asked = Fresh { version: g.major as u32, ..draw::fresh::asked(bytes, &mut r) };
        let mut image = fresh::noise(bytes);
        let needed = asked.minis.div_ceil(g.cells as u64);
        if perform(&Call::Format(asked), &mut image, 0).answer != 0 || asked.mini_fat < needed {
            continue;
        }
        let spare = (asked.directory as u32 - 1, asked.minis as u32, (asked.mini_fat - needed) as u32);
        let (spare_directory, spare_minis, spare_mini_fat) = spare;
        let sectors = Some(asked.sectors as u32);
        let plan = Plan { sectors, spare_directory, spare_minis, spare_mini_fat, ..Plan::of(g) };
        let Sample { image: mut due, layout } = Sample::build(&plan, &mut r);
        due[24] = 0x3E;
        write::name(&mut due, layout.entry(0), &names::of("Root Entry"));
        due[layout.entry(0) + 67] = 1;
        assert!(image == due, "{asked:?}");
        agreed += 1;
    }
    assert!(agreed > 500, "{agreed}");
}

/// What is written is valid and has every entry but the root's blank.
#[test]
fn fresh_images_are_valid() {
    for g in VERSIONS {
        let image = formatted(fresh::asked(g, 60, 3, 2, 100));
        assert_eq!(validate(&image, work_needed(image.len())), 0);
        let volume = Volume::open(&image).expect("a valid image");
        assert_eq!((volume.geometry, volume.directory.count()), (g, 3 * g.entries));
        assert_eq!(volume.mini.chains.cells, vec![FREE; 100]);
    }
}
