//! The objects of a volume, one by one.

use super::refusals::JETS;
use super::{sample, site};
use gyomrelas::{path, Kind, Object, ReadOnlyVolume, Refusal, Volume};

fn object(kind: Kind, size: u64, name: &str) -> Object {
    Object { path: path(name), kind, size }
}

#[test]
fn they_are_those_of_the_listing() {
    let (mut image, mut work) = site();
    let mut volume = Volume::open(&mut image, &mut work).expect("valid");
    let objects: Vec<Object> = volume.objects().expect("short").collect();
    let expected = [
        object(Kind::Storage, 0, "Site"),
        object(Kind::Stream, 5000, "Site/log"),
        object(Kind::Stream, 70, "Site/Jets"),
    ];
    assert_eq!(objects, expected);

    let (image, mut work) = sample("nested.cfb");
    let mut volume = ReadOnlyVolume::open(&image, &mut work).expect("valid");
    let objects: Vec<Object> = volume.objects().expect("short").collect();
    let expected = [
        object(Kind::Stream, 15, "note"),
        object(Kind::Storage, 0, "Pumps"),
        object(Kind::Storage, 0, "Pumps/Süd"),
        object(Kind::Storage, 0, "Pumps/Nord"),
        object(Kind::Stream, 4095, "Pumps/Nord/gauge"),
        object(Kind::Stream, 0, "Pumps/Nord/valve"),
        object(Kind::Stream, 4096, "Timing"),
    ];
    assert_eq!(objects, expected);
}

#[test]
fn each_is_found_by_its_path() {
    for name in ["site.cfb", "nested.cfb", "site4.cfb"] {
        let (image, mut work) = sample(name);
        let mut volume = ReadOnlyVolume::open(&image, &mut work).expect("valid");
        for object in volume.objects().expect("short") {
            let entry = volume.find(&object.path).expect("there");
            assert_eq!((entry.kind, entry.size), (object.kind, object.size));
        }
    }
}

/// Of any name that is legal: with units that do not print, that are no text in UTF-16, or that look like an escape.
#[test]
fn a_name_of_any_units_is_found() {
    for units in [
        [1, 0x0A, 0x7F, 0x20],
        [0xD800, 0xFFFF, 0x5C00, 0x2F2F],
        [0x80, 0x30, 0x30, 0x46],
        [0x20, 0x22, 0x7E, 0x20],
        [0x1F, 0x41, 0xABCD, 0x31],
    ] {
        let (mut image, mut work) = site();
        for (i, unit) in units.iter().enumerate() {
            let place = JETS + 2 * i;
            image[place..place + 2].copy_from_slice(&u16::to_le_bytes(*unit));
        }
        let mut volume = Volume::open(&mut image, &mut work).expect("valid");
        let last = volume.objects().expect("short").last().expect("three objects");
        assert_eq!(last.path, [&path("Site/"), &units[..]].concat());
        assert_eq!(volume.find(&last.path).map(|entry| (entry.kind, entry.size)), Ok((Kind::Stream, 70)));
    }
}

#[test]
fn their_number_is_known_beforehand() {
    let (image, mut work) = sample("nested.cfb");
    let mut volume = ReadOnlyVolume::open(&image, &mut work).expect("valid");
    let mut objects = volume.objects().expect("short");
    for left in (0..7).rev() {
        assert!(objects.next().is_some());
        assert_eq!(objects.len(), left);
    }
    assert_eq!(objects.next(), None);
    assert_eq!(objects.next(), None);
}

#[test]
fn streams_can_be_edited_as_they_come() {
    let (mut image, mut work) = sample("nested.cfb");
    let mut volume = Volume::open(&mut image, &mut work).expect("valid");
    for object in volume.objects().expect("short").filter(|object| object.kind == Kind::Stream) {
        assert_eq!(volume.set_len(&object.path, 0), Ok(()));
    }
    assert_eq!(volume.objects().expect("short").map(|object| object.size).sum::<u64>(), 0);
}

#[test]
fn a_listing_above_the_bound_is_refused() {
    let (mut image, mut work) = site();
    let mut volume = Volume::open(&mut image, &mut work).expect("valid");
    assert_eq!(volume.objects_within(0).err(), Some(Refusal::OutTooShort));
    assert_eq!(volume.objects_within(49).err(), Some(Refusal::OutTooShort));
    assert_eq!(volume.objects_within(50).expect("just so long").count(), 3);
    assert_eq!(volume.objects_within(usize::MAX).expect("short").count(), 3);
}
