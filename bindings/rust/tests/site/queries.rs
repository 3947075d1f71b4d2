//! What is found, read and listed.

use super::{content, jets, log, sample, site};
use gyomrelas::{find, list, path, read, validate, work_need, Entry, Kind};

const LISTING: &[u8] = b"objects 3\nD 0 Site\nF 5000 Site/log\nF 70 Site/Jets\n";

#[test]
fn the_sample_is_valid() {
    let (image, mut work) = site();
    assert_eq!(validate(&image, &mut work), Ok(()));
}

#[test]
fn the_listing_is_the_one_of_the_scope_paper() {
    let (image, mut work) = site();
    let mut out = [b'x'; 100];
    assert_eq!(list(&image, &mut work, &mut out), Ok(LISTING.len()));
    assert_eq!(&out[..LISTING.len()], LISTING);
    assert!(out[LISTING.len()..].iter().all(|&byte| byte == b'x'));
}

#[test]
fn an_out_buffer_of_the_same_length_holds_the_listing() {
    let (image, mut work) = site();
    let mut out = vec![0; LISTING.len()];
    assert_eq!(list(&image, &mut work, &mut out), Ok(LISTING.len()));
    assert_eq!(out, LISTING);
}

#[test]
fn entries_are_found() {
    let (image, mut work) = site();
    let mut found =
        |name| find(&image, &mut work, &path(name)).map(|Entry { number, kind, size }| (number, kind, size));
    assert_eq!(found(""), Ok((0, Kind::Root, 128)));
    assert_eq!(found("Site"), Ok((1, Kind::Storage, 0)));
    assert_eq!(found("Site/log"), Ok((2, Kind::Stream, 5000)));
    assert_eq!(found("Site/Jets"), Ok((3, Kind::Stream, 70)));
    assert_eq!(found("sITE/LOG"), found("Site/log"));
}

#[test]
fn streams_are_read_whole() {
    let (image, _) = site();
    assert_eq!(content(&image, "Site/log"), log());
    assert_eq!(content(&image, "Site/Jets"), jets());
}

#[test]
fn a_read_ends_at_the_end_of_the_stream_or_of_the_out_buffer() {
    let (image, mut work) = site();
    let name = path("Site/log");
    let mut out = [b'x'; 20];
    assert_eq!(read(&image, &mut work, &name, 4990, &mut out), Ok(10));
    assert_eq!(&out[..10], &log()[4990..]);
    assert_eq!(&out[10..], [b'x'; 10]);
    assert_eq!(read(&image, &mut work, &name, 507, &mut out), Ok(20));
    assert_eq!(out, log()[507..527]);
    assert_eq!(read(&image, &mut work, &name, 5000, &mut out), Ok(0));
    assert_eq!(read(&image, &mut work, &name, 0, &mut []), Ok(0));
}

#[test]
fn the_work_buffer_is_zero_as_far_as_it_is_needed() {
    let (image, mut work) = site();
    let need = work_need(image.len());
    assert_eq!(need, 13 * 15);
    validate(&image, &mut work).expect("valid");
    assert!(work[..need].iter().all(|&number| number == 0));
    assert_eq!(work[need..], [7]);
}

#[test]
fn a_path_is_in_utf_16() {
    assert_eq!(path("Süd/𝄞"), [0x53, 0xfc, 0x64, 0x2f, 0xd834, 0xdd1e]);
    let (image, mut work) = sample("nested.cfb");
    let south = find(&image, &mut work, &path("Pumps/Süd")).expect("there");
    assert_eq!((south.kind, south.size), (Kind::Storage, 0));
}
