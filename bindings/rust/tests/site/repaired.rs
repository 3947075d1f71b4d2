//! Images that are bent, and repaired.

use super::{content, jets, listed, log, sample, site};
use gyomrelas::{create_stream, format, overwrite, path, repair, set_len, validate, work_need, Plan, Refusal, Volume};

const FREE: u32 = 0xFFFF_FFFF;
const END: u32 = 0xFFFF_FFFE;

fn put(image: &mut [u8], at: usize, value: u32) {
    image[at..at + 4].copy_from_slice(&value.to_le_bytes());
}

fn word(image: &[u8], at: usize) -> usize {
    u32::from_le_bytes([image[at], image[at + 1], image[at + 2], image[at + 3]]) as usize
}

/// Where things stand in an image whose FAT has one sector.
struct Places {
    /// How many sectors there are.
    sectors: usize,
    /// How many cells a sector holds.
    cells: usize,
    fat: usize,
    directory: usize,
    mini_fat: usize,
}

impl Places {
    fn of(image: &[u8]) -> Places {
        let sector = 1 << image[30];
        let place = |at: usize| sector * (word(image, at) + 1);
        Places {
            sectors: image.len() / sector - 1,
            cells: sector / 4,
            fat: place(76),
            directory: place(48),
            mini_fat: place(60),
        }
    }

    /// The place of an entry's colour, in the directory's first sector.
    fn colour(&self, entry: usize) -> usize {
        self.directory + 128 * entry + 67
    }
}

/// A spare buffer with so many bytes more than the image has.
fn spare(image: &[u8], more: usize) -> Vec<u8> {
    vec![b'x'; image.len() + more]
}

/// Both samples with the same objects, of either version.
fn samples() -> [(Vec<u8>, Vec<u32>); 2] {
    ["site.cfb", "site4.cfb"].map(sample)
}

#[test]
fn bent_cells_and_colours() {
    for (image, mut work) in samples() {
        let at = Places::of(&image);
        let mut due = image.clone();
        (0..4).for_each(|entry| due[at.colour(entry)] = 1);
        let mut bent = due.clone();
        put(&mut bent, at.fat + 4 * at.sectors, END);
        put(&mut bent, at.fat + 4 * (at.cells - 1), 5);
        put(&mut bent, at.mini_fat + 4 * (at.cells - 1), 0);
        bent[at.colour(0)] = 7;
        bent[at.colour(2)] = 0;
        assert_eq!(validate(&bent, &mut work), Err(Refusal::Cells));
        let mut spare = spare(&bent, 3);
        assert_eq!(repair(&mut bent, &mut work, &mut spare), Ok(5));
        assert!(bent == due);
        assert_eq!((content(&bent, "Site/log"), content(&bent, "Site/Jets")), (log(), jets()));
        assert_eq!(listed(&bent), listed(&image));
        // nothing is left to be done
        assert_eq!(repair(&mut bent, &mut work, &mut spare), Ok(0));
        assert!(bent == due);
    }
}

/// Units that nobody owns are free again, and can be had.
#[test]
fn cells_that_nobody_owns() {
    for (version, bytes) in [(3, 16_384), (4, 65_536)] {
        let plan = Plan::for_size(version, bytes, 3, 640).expect("there is room");
        let mut image = vec![0; bytes];
        assert_eq!(format(&mut image, plan), Ok(()));
        let (at, fresh) = (Places::of(&image), image.clone());
        let free = plan.free_sectors().expect("it was carried out") as usize;
        for sector in at.sectors - free..at.sectors {
            put(&mut image, at.fat + 4 * sector, END);
        }
        for mini in 0..plan.mini_sectors as usize {
            put(&mut image, at.mini_fat + 4 * mini, 0);
        }
        let (mut work, mut spare) = (vec![7; work_need(bytes)], spare(&image, 0));
        assert_eq!(validate(&image, &mut work), Err(Refusal::Owners));
        let changed = free as u64 + plan.mini_sectors;
        assert_eq!(repair(&mut image, &mut work, &mut spare), Ok(changed));
        assert!(image == fresh);
        let all = (bytes / (at.sectors + 1) * free) as u64;
        assert_eq!(create_stream(&mut image, &mut work, &path("log")), Ok(()));
        assert_eq!(set_len(&mut image, &mut work, &path("log"), all), Ok(()));
        assert_eq!(repair(&mut image, &mut work, &mut spare), Ok(0));
    }
}

/// An accepted image gets black colours and no other change.
#[test]
fn red_entries() {
    for (black, mut work) in samples() {
        let at = Places::of(&black);
        // of log and Jets the one that is not the top of their tree
        let red = 5 - word(&black, at.directory + 128 + 76);
        let mut image = black.clone();
        image[at.colour(red)] = 0;
        assert_eq!(validate(&image, &mut work), Ok(()));
        let mut spare = spare(&image, 0);
        assert_eq!(repair(&mut image, &mut work, &mut spare), Ok(1));
        assert!(image == black);
    }
    let (mut image, mut work) = sample("nested.cfb");
    let before = image.clone();
    assert_eq!(repair(&mut image, &mut work, &mut spare(&before, 0)), Ok(0));
    assert!(image == before);
}

/// The buffers after a repair and after a refusal.
#[test]
fn the_spare_buffer_is_left_zero() {
    for (mut image, mut work) in samples() {
        let (length, need) = (image.len(), work_need(image.len()));
        for broken in [false, true] {
            image[0] = if broken { 0 } else { 0xD0 };
            let (before, mut spare) = (image.clone(), spare(&image, 9));
            let answer = repair(&mut image, &mut work, &mut spare);
            assert_eq!(answer.is_err(), broken);
            assert!(!broken || image == before);
            assert!(spare[..length].iter().all(|&byte| byte == 0) && spare[length..] == [b'x'; 9]);
            assert!(work[..need].iter().all(|&number| number == 0) && work[need..] == [7]);
            work.fill(7);
        }
    }
}

#[test]
fn buffers_that_are_too_short() {
    for (mut image, mut work) in samples() {
        let at = Places::of(&image);
        put(&mut image, at.fat + 4 * at.sectors, END);
        let (before, need, mut spare) = (image.clone(), work_need(image.len()), spare(&image, 0));
        let length = image.len();
        for (numbers, bytes) in [(need - 1, length), (need, length - 1), (0, length), (need, 0), (0, 0)] {
            let answer = repair(&mut image, &mut work[..numbers], &mut spare[..bytes]);
            assert_eq!(answer, Err(Refusal::ShortWork));
        }
        // a length that is not allowed comes first
        assert_eq!(repair(&mut image[..length - 1], &mut work, &mut []), Err(Refusal::BadLength));
        assert_eq!(repair(&mut [], &mut [], &mut []), Err(Refusal::BadLength));
        assert!(image == before);
        assert!(work.iter().all(|&number| number == 7) && spare.iter().all(|&byte| byte == b'x'));
        assert_eq!(repair(&mut image, &mut work[..need], &mut spare).map(|changed| changed > 0), Ok(true));
    }
}

/// What no step repairs: the number is that of what the steps left, and the image is as it was, bent cells and all.
#[test]
fn what_cannot_be_repaired() {
    for (number, mut image) in super::refusals::broken() {
        let (_, mut work) = site();
        // after the fourth step the mini sector that nobody owns is free
        let due = if number == 18 { Ok(true) } else { Err(number) };
        let at = Places::of(&site().0);
        if number > 11 {
            put(&mut image, at.fat + 4 * (at.cells - 1), 0);
        }
        let (before, mut spare) = (image.clone(), spare(&image, 0));
        let answer = repair(&mut image, &mut work, &mut spare);
        assert_eq!(answer.map(|changed| changed > 0).map_err(Refusal::number), due);
        assert_eq!(image == before, due.is_err());
        assert_eq!(validate(&image, &mut work).is_ok(), due.is_ok());
    }
}

/// One sector of two owners is nothing that a repair could settle.
#[test]
fn two_owners() {
    let (mut image, mut work) = sample("site4.cfb");
    let at = Places::of(&image);
    // Jets gets the start and the size of log
    let (log, jets) = (at.directory + 2 * 128, at.directory + 3 * 128);
    image.copy_within(log + 116..log + 128, jets + 116);
    let (before, mut spare) = (image.clone(), spare(&image, 0));
    assert_eq!(repair(&mut image, &mut work, &mut spare), Err(Refusal::Owners));
    assert!(image == before);
}

#[test]
fn a_volume_is_opened_after_a_repair() {
    for (mut image, mut work) in samples() {
        let at = Places::of(&image);
        put(&mut image, at.fat + 4 * at.sectors, 0);
        assert_eq!(Volume::open(&mut image, &mut work).err(), Some(Refusal::Cells));
        let mut spare = spare(&image, 0);
        assert!(repair(&mut image, &mut work, &mut spare).is_ok());
        assert_eq!(word(&image, at.fat + 4 * at.sectors), FREE as usize);
        let mut volume = Volume::open(&mut image, &mut work).expect("it is repaired");
        assert_eq!(volume.objects().expect("a listing").len(), 3);
        assert_eq!(volume.overwrite(&path("Site/log"), 0, b"end\n"), Ok(()));
        drop(volume);
        assert_eq!(overwrite(&mut image, &mut work, &path("Site/log"), 0, &log()[..4]), Ok(()));
        assert_eq!(content(&image, "Site/log"), log());
    }
}
