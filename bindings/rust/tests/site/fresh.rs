//! Fresh images.

use std::io;

use super::{content, listed, sample, text};
use gyomrelas::{
    create_storage, create_stream, find, format, overwrite, path, remove, set_len, validate, work_need, Kind, Plan,
    Refusal, Volume,
};

/// A length that both versions have.
const BYTES: usize = 61_440;

/// Two sectors for the directory, and 20 mini sectors.
const PLANS: [Plan; 2] = [
    Plan { version: 3, sectors: 119, directory_sectors: 2, mini_fat_sectors: 1, mini_sectors: 20 },
    Plan { version: 4, sectors: 14, directory_sectors: 2, mini_fat_sectors: 1, mini_sectors: 20 },
];

fn noise(bytes: usize) -> Vec<u8> {
    text("no compound file\n", bytes)
}

/// The fresh image, and a work buffer for it.
fn fresh(plan: Plan) -> (Vec<u8>, Vec<u32>) {
    let sector = if plan.version == 4 { 4096 } else { 512 };
    let mut image = noise(sector * (plan.sectors as usize + 1));
    assert_eq!(format(&mut image, plan), Ok(()));
    let work = vec![7; work_need(image.len())];
    (image, work)
}

#[test]
fn a_fresh_image_has_a_root_and_nothing_else() {
    for version in [3, 4] {
        let least = Plan { version, sectors: 2, directory_sectors: 1, mini_fat_sectors: 0, mini_sectors: 0 };
        let (image, mut work) = fresh(least);
        assert_eq!(validate(&image, &mut work), Ok(()));
        assert_eq!(listed(&image), "objects 0\n");
        assert_eq!(find(&image, &mut work, &path("Root Entry")), Err(Refusal::NotFound));
    }
    for plan in PLANS {
        let (mut image, mut work) = fresh(plan);
        assert_eq!(listed(&image), "objects 0\n");
        let root = find(&image, &mut work, &path("")).expect("a root");
        assert_eq!((root.number, root.kind, root.size), (0, Kind::Root, 20 * 64));
        let mut volume = Volume::open(&mut image, &mut work).expect("valid");
        assert_eq!(volume.objects().expect("a listing").len(), 0);
    }
}

#[test]
fn what_the_buffer_held_does_not_count() {
    for plan in PLANS {
        let (image, _) = fresh(plan);
        for byte in [0, 0xFF] {
            let mut other = vec![byte; BYTES];
            assert_eq!(format(&mut other, plan), Ok(()));
            assert_eq!(other, image);
        }
        let mut other = fresh(PLANS[4 - plan.version as usize]).0;
        assert_eq!(format(&mut other, plan), Ok(()));
        assert_eq!(other, image);
    }
}

#[test]
fn all_that_was_planned_can_be_had() {
    for (plan, sector, blanks) in [(PLANS[0], 512, 7), (PLANS[1], 4096, 63)] {
        let (mut image, mut work) = fresh(plan);
        for number in 0..blanks {
            let name = path(&format!("object {number}"));
            match number {
                0 | 1 => assert_eq!(create_stream(&mut image, &mut work, &name), Ok(())),
                _ => assert_eq!(create_storage(&mut image, &mut work, &name), Ok(())),
            }
        }
        assert_eq!(create_stream(&mut image, &mut work, &path("more")), Err(Refusal::NoBlankEntry));

        let (small, large) = (path("object 0"), path("object 1"));
        assert_eq!(set_len(&mut image, &mut work, &small, 20 * 64 + 1), Err(Refusal::TooFewFree));
        assert_eq!(set_len(&mut image, &mut work, &small, 20 * 64), Ok(()));
        let most = sector * plan.free_sectors().expect("it was carried out");
        assert_eq!(set_len(&mut image, &mut work, &large, most + 1), Err(Refusal::TooFewFree));
        assert_eq!(set_len(&mut image, &mut work, &large, most), Ok(()));
        assert_eq!(overwrite(&mut image, &mut work, &large, most - 3, b"end"), Ok(()));
        assert_eq!(validate(&image, &mut work), Ok(()));
        assert_eq!(content(&image, "object 0"), [0; 20 * 64]);
    }
}

#[test]
fn of_another_image_nothing_is_left() {
    for (name, version, sectors) in [("site.cfb", 3, 14), ("site4.cfb", 4, 6)] {
        let (mut image, mut work) = sample(name);
        let sector = if version == 4 { 4096 } else { 512 };
        assert_eq!(image.len(), sector * (sectors as usize + 1), "{name}");
        let plan = Plan { version, sectors, directory_sectors: 1, mini_fat_sectors: 1, mini_sectors: 2 };
        assert_eq!(format(&mut image, plan), Ok(()));
        assert_eq!(listed(&image), "objects 0\n");
        assert_eq!(create_stream(&mut image, &mut work, &path("log")), Ok(()));
        assert_eq!(set_len(&mut image, &mut work, &path("log"), 128), Ok(()));
        assert_eq!(content(&image, "log"), [0; 128]);
        assert_eq!(set_len(&mut image, &mut work, &path("log"), 5000), Ok(()));
        assert_eq!(content(&image, "log"), [0; 5000]);
        assert_eq!(remove(&mut image, &mut work, &path("log")), Ok(()));
        assert_eq!(listed(&image), "objects 0\n");
    }
}

/// Each reason for 1 and for 32, in a buffer of noise and in a valid image.
#[test]
fn a_refusal_writes_nothing() {
    let [third, fourth] = PLANS;
    for (plan, refusal) in [
        (Plan { sectors: 118, ..third }, Refusal::BadLength),
        (Plan { sectors: 14, ..third }, Refusal::BadLength),
        (Plan { sectors: 119, ..fourth }, Refusal::BadLength),
        (Plan { sectors: u64::MAX, ..third }, Refusal::BadLength),
        (Plan { sectors: 119 + (1 << 55), ..third }, Refusal::BadLength),
        (Plan { sectors: 14, version: 5, ..fourth }, Refusal::BadLength),
        (Plan { sectors: 0, directory_sectors: 0, ..third }, Refusal::BadLength),
        (Plan { version: 5, ..third }, Refusal::PlanDoesNotFit),
        (Plan { version: 0x10004, ..third }, Refusal::PlanDoesNotFit),
        (Plan { directory_sectors: 0, ..third }, Refusal::PlanDoesNotFit),
        (Plan { mini_fat_sectors: 0, ..fourth }, Refusal::PlanDoesNotFit),
        (Plan { mini_sectors: 129, ..third }, Refusal::PlanDoesNotFit),
        (Plan { mini_sectors: 1025, ..fourth }, Refusal::PlanDoesNotFit),
        (Plan { directory_sectors: 115, ..third }, Refusal::PlanDoesNotFit),
        (Plan { mini_fat_sectors: 11, ..fourth }, Refusal::PlanDoesNotFit),
        (Plan { directory_sectors: u64::MAX, mini_fat_sectors: 4, ..third }, Refusal::PlanDoesNotFit),
        (Plan { mini_fat_sectors: 1 << 57, mini_sectors: 1 << 58, ..third }, Refusal::PlanDoesNotFit),
    ] {
        for before in [noise(BYTES), fresh(third).0] {
            let mut image = before.clone();
            assert_eq!(format(&mut image, plan), Err(refusal), "{plan:?}");
            assert_eq!(image, before);
        }
    }
    for length in [0, 1, 1024, 1535, BYTES - 1, BYTES + 512, BYTES + 4096] {
        let before = noise(length);
        let mut image = before.clone();
        assert_eq!(format(&mut image, fourth), Err(Refusal::BadLength), "{length}");
        assert_eq!(image, before);
    }
    assert_eq!(io::Error::from(Refusal::PlanDoesNotFit).kind(), io::ErrorKind::InvalidInput);
}
