//! Each refusal on its occasion, and that nothing changes then.

use super::site;
use gyomrelas::{find, list, overwrite, path, read, set_len, validate, work_need, Refusal};

/// Where things stand in the sample: the sectors of the tables are a sector number more, times 512.
const FAT: usize = 512;
const MINI_FAT: usize = 11 * 512;
pub const ROOT: usize = 4 * 512;
pub const SITE: usize = ROOT + 128;
pub const LOG: usize = ROOT + 2 * 128;
pub const JETS: usize = ROOT + 3 * 128;

#[test]
fn numbers_and_refusals_belong_together() {
    let numbers: Vec<u32> = Refusal::ALL.iter().map(|refusal| refusal.number()).collect();
    assert_eq!(numbers, [1, 2, 10, 11, 12, 13, 14, 15, 16, 17, 18, 20, 21, 22, 23, 24, 26, 27, 28, 29, 30, 31, 32, 33]);
    assert!(Refusal::ALL.iter().all(|&refusal| Refusal::from_number(refusal.number()) == Some(refusal)));
    assert!([0, 3, 9, 19, 25, 34, u32::MAX].iter().all(|&number| Refusal::from_number(number).is_none()));
    assert_eq!(Refusal::TooFewFree.to_string(), "refused 26: there are too few free sectors or mini sectors");
}

#[test]
fn a_length_that_is_not_allowed() {
    let (image, mut work) = site();
    for length in [0, 1, 1024, 1535, 1537, image.len() - 1] {
        assert_eq!(validate(&image[..length], &mut work), Err(Refusal::BadLength));
    }
    assert!(work.iter().all(|&number| number == 7));
}

#[test]
fn a_work_buffer_that_is_too_short() {
    let (image, mut work) = site();
    let need = work_need(image.len());
    assert_eq!(validate(&image, &mut work[..need - 1]), Err(Refusal::ShortWork));
    assert_eq!(validate(&image, &mut []), Err(Refusal::ShortWork));
    assert!(work.iter().all(|&number| number == 7));
    assert_eq!(validate(&image, &mut work[..need]), Ok(()));
}

/// For each group of rules its number, and the sample with a rule of it broken.
pub fn broken() -> impl Iterator<Item = (u32, Vec<u8>)> {
    let end_of_chain: u32 = 0xFFFF_FFFE;
    let breaks: [(u32, Vec<(usize, u32)>); 9] = [
        (10, vec![(0, 0)]),                                         // the signature
        (11, vec![(44, 0)]),                                        // no FAT sector
        (12, vec![(FAT + 4, 1000)]),                                // a sector behind the image
        (13, vec![(48, end_of_chain)]),                             // no directory
        (14, vec![(ROOT + 68, 1)]),                                 // a sibling of the root
        (15, vec![(ROOT + 76, u32::MAX)]),                          // nothing below the root
        (16, vec![(ROOT + 120, 127)]),                              // half a mini sector
        (17, vec![(LOG + 120, 5121)]),                              // a sector more than its chain has
        (18, vec![(JETS + 120, 64), (MINI_FAT + 4, end_of_chain)]), // a mini sector that nobody owns
    ];
    breaks.into_iter().map(|(number, changes)| {
        let (mut image, _) = site();
        for (place, value) in changes {
            image[place..place + 4].copy_from_slice(&value.to_le_bytes());
        }
        (number, image)
    })
}

#[test]
fn an_image_that_breaks_a_rule() {
    for (number, mut image) in broken() {
        let (_, mut work) = site();
        let answer = validate(&image, &mut work).map_err(Refusal::number);
        assert_eq!(answer, Err(number));
        // every call looks at the whole image first
        assert_eq!(find(&image, &mut work, &path("")).map_err(Refusal::number), Err(number));
        let before = image.clone();
        assert_eq!(set_len(&mut image, &mut work, &path("Site/log"), 0).map_err(Refusal::number), Err(number));
        assert_eq!(image, before);
    }
}

/// The first, a middle and the last unit of a storage's and a stream's name. The root's name is not judged.
#[test]
fn a_name_with_a_unit_that_is_refused() {
    let (image, mut work) = site();
    for unit in [0, b'/', b'\\', b':', b'!'] {
        for (entry, answer) in [(SITE, Err(Refusal::Entries)), (JETS, Err(Refusal::Entries)), (ROOT, Ok(()))] {
            for place in [entry, entry + 2, entry + 6] {
                let mut image = image.clone();
                image[place] = unit;
                assert_eq!(validate(&image, &mut work), answer, "{unit}");
            }
        }
    }
}

#[test]
fn a_path_that_is_badly_formed() {
    let (image, mut work) = site();
    let long = "x".repeat(32);
    for name in ["/", "/Site", "Site/", "Site//log", "Site\\log", "Site:log", "Site/l\0g", &long] {
        assert_eq!(find(&image, &mut work, &path(name)), Err(Refusal::BadPath), "{name}");
    }
    // also where a name before it is missing, or is a stream's
    for name in ["!", "!Site", "Site!log", "Site/l!g", "Site/log!", "gone/!", "Site/log/x!"] {
        assert_eq!(find(&image, &mut work, &path(name)), Err(Refusal::BadPath), "{name}");
    }
    assert_eq!(find(&image, &mut work, &path(&long[1..])), Err(Refusal::NotFound));
}

#[test]
fn a_path_that_leads_nowhere() {
    let (image, mut work) = site();
    for name in ["log", "Site/lo", "Site/logs", "Sites/log", "Jets/x"] {
        assert_eq!(find(&image, &mut work, &path(name)), Err(Refusal::NotFound), "{name}");
    }
    for name in ["Site/log/x", "Site/Jets/x/y"] {
        assert_eq!(find(&image, &mut work, &path(name)), Err(Refusal::StreamOnTheWay), "{name}");
    }
}

#[test]
fn a_read_that_is_refused_copies_nothing() {
    let (image, mut work) = site();
    let mut out = [b'x'; 8];
    for (name, offset, refusal) in [
        ("a:b", 0, Refusal::BadPath),
        ("a!b", 0, Refusal::BadPath),
        ("Site/no", 0, Refusal::NotFound),
        ("Site/log/x", 0, Refusal::StreamOnTheWay),
        ("Site", 0, Refusal::NotAStream),
        ("", 0, Refusal::NotAStream),
        ("Site/log", 5001, Refusal::Beyond),
        ("Site/log", u64::MAX, Refusal::Beyond),
    ] {
        assert_eq!(read(&image, &mut work, &path(name), offset, &mut out), Err(refusal), "{name}");
    }
    assert_eq!(out, [b'x'; 8]);
}

#[test]
fn an_overwrite_that_is_refused_changes_nothing() {
    let (mut image, mut work) = site();
    let before = image.clone();
    for (name, offset, refusal) in [
        ("Site/", 0, Refusal::BadPath),
        ("Site/log!", 0, Refusal::BadPath),
        ("log", 0, Refusal::NotFound),
        ("Site/log/x", 0, Refusal::StreamOnTheWay),
        ("Site", 0, Refusal::NotAStream),
        ("Site/log", 4998, Refusal::Beyond),
        ("Site/log", u64::MAX, Refusal::Beyond),
        ("Site/Jets", 68, Refusal::Beyond),
    ] {
        assert_eq!(overwrite(&mut image, &mut work, &path(name), offset, b"abc"), Err(refusal), "{name} {offset}");
        assert_eq!(image, before);
    }
}

#[test]
fn a_change_of_length_that_is_refused_changes_nothing() {
    let (mut image, mut work) = site();
    let before = image.clone();
    for (name, length, refusal) in [
        ("Site\\log", 0, Refusal::BadPath),
        ("!Site/log", 0, Refusal::BadPath),
        ("Site/Log ", 0, Refusal::NotFound),
        ("Site/Jets/x", 0, Refusal::StreamOnTheWay),
        ("", 0, Refusal::NotAStream),
        ("Site/log", 5121, Refusal::TooFewFree),
        ("Site/log", u64::MAX, Refusal::TooFewFree),
        ("Site/Jets", 129, Refusal::TooFewFree),
        // what a stream would give up is no room for it on the other side of the cutoff, not for a shorter length either
        ("Site/Jets", 4096, Refusal::TooFewFree),
        ("Site/Jets", u64::MAX, Refusal::TooFewFree),
        ("Site/log", 4095, Refusal::TooFewFree),
        ("Site/log", 1, Refusal::TooFewFree),
    ] {
        assert_eq!(set_len(&mut image, &mut work, &path(name), length), Err(refusal), "{name} {length}");
        assert_eq!(image, before);
    }
}

#[test]
fn a_listing_that_does_not_fit_writes_nothing() {
    let (image, mut work) = site();
    let mut out = [b'x'; 49];
    assert_eq!(list(&image, &mut work, &mut out), Err(Refusal::OutTooShort));
    assert_eq!(out, [b'x'; 49]);
    assert_eq!(list(&image, &mut work, &mut []), Err(Refusal::OutTooShort));
}
