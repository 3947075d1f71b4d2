//! What overwrites and changes of length do.

use super::{content, jets, log, site};
use gyomrelas::{find, overwrite, path, set_len, validate, Refusal};

#[test]
fn bytes_that_are_written_are_read_back() {
    let (mut image, mut work) = site();
    // over the end of a sector
    assert_eq!(overwrite(&mut image, &mut work, &path("Site/log"), 510, b"over"), Ok(()));
    let mut expected = log();
    expected[510..514].copy_from_slice(b"over");
    assert_eq!(content(&image, "Site/log"), expected);
    assert_eq!(content(&image, "Site/Jets"), jets());
    // up to the stream's end, over the end of a mini sector
    assert_eq!(overwrite(&mut image, &mut work, &path("Site/Jets"), 60, b"0123456789"), Ok(()));
    assert_eq!(content(&image, "Site/Jets"), [&jets()[..60], b"0123456789"].concat());
    assert_eq!(content(&image, "Site/log"), expected);
    assert_eq!(validate(&image, &mut work), Ok(()));
}

#[test]
fn an_overwrite_changes_only_its_bytes() {
    let (mut image, mut work) = site();
    let before = image.clone();
    assert_eq!(overwrite(&mut image, &mut work, &path("Site/log"), 510, b"1234"), Ok(()));
    assert_eq!(image.iter().zip(&before).filter(|(now, then)| now != then).count(), 4);
    image.clone_from(&before);
    assert_eq!(overwrite(&mut image, &mut work, &path("Site/log"), 5000, b""), Ok(()));
    assert_eq!(image, before);
}

#[test]
fn growth_gives_zero_bytes() {
    let (mut image, mut work) = site();
    assert_eq!(set_len(&mut image, &mut work, &path("Site/log"), 5120), Ok(()));
    assert_eq!(content(&image, "Site/log"), [log(), vec![0; 120]].concat());
    assert_eq!(set_len(&mut image, &mut work, &path("Site/Jets"), 128), Ok(()));
    assert_eq!(content(&image, "Site/Jets"), [jets(), vec![0; 58]].concat());
    assert_eq!(find(&image, &mut work, &path("Site/log")).map(|entry| entry.size), Ok(5120));
    assert_eq!(validate(&image, &mut work), Ok(()));
}

#[test]
fn bytes_that_were_cut_off_do_not_come_back() {
    let (mut image, mut work) = site();
    let name = path("Site/log");
    assert_eq!(set_len(&mut image, &mut work, &name, 4100), Ok(()));
    assert_eq!(content(&image, "Site/log"), log()[..4100]);
    assert_eq!(set_len(&mut image, &mut work, &name, 5000), Ok(()));
    assert_eq!(content(&image, "Site/log"), [&log()[..4100], &[0; 900]].concat());
    assert_eq!(content(&image, "Site/Jets"), jets());
}

#[test]
fn sectors_that_one_stream_frees_are_there_for_another() {
    let (mut image, mut work) = site();
    assert_eq!(set_len(&mut image, &mut work, &path("Site/log"), 0), Ok(()));
    assert_eq!(set_len(&mut image, &mut work, &path("Site/Jets"), 0), Ok(()));
    assert_eq!(set_len(&mut image, &mut work, &path("Site/Jets"), 4096), Ok(()));
    assert_eq!(set_len(&mut image, &mut work, &path("Site/log"), 128), Ok(()));
    assert_eq!(content(&image, "Site/Jets"), [0; 4096]);
    assert_eq!(content(&image, "Site/log"), [0; 128]);
    assert_eq!(validate(&image, &mut work), Ok(()));
}

#[test]
fn a_stream_keeps_its_bytes_over_the_cutoff_and_back() {
    let (mut image, mut work) = site();
    let name = path("Site/Jets");
    // ten sectors become free, and two mini sectors are there for either stream
    assert_eq!(set_len(&mut image, &mut work, &path("Site/log"), 0), Ok(()));
    assert_eq!(set_len(&mut image, &mut work, &name, 5121), Err(Refusal::TooFewFree));
    assert_eq!(set_len(&mut image, &mut work, &name, 4096), Ok(()));
    assert_eq!(content(&image, "Site/Jets"), [jets(), vec![0; 4026]].concat());
    assert_eq!(find(&image, &mut work, &name).map(|entry| entry.size), Ok(4096));
    assert_eq!(overwrite(&mut image, &mut work, &name, 66, b"kept, and not kept"), Ok(()));

    // shorter, and still refused for room
    assert_eq!(set_len(&mut image, &mut work, &name, 129), Err(Refusal::TooFewFree));
    assert_eq!(set_len(&mut image, &mut work, &name, 70), Ok(()));
    assert_eq!(content(&image, "Site/Jets"), [&jets()[..66], b"kept"].concat());
    assert_eq!(set_len(&mut image, &mut work, &name, 128), Ok(()));
    assert_eq!(content(&image, "Site/Jets"), [&jets()[..66], b"kept", &[0; 58]].concat());

    // the sectors that it gave up are there for the other stream, with nothing left in them
    assert_eq!(set_len(&mut image, &mut work, &path("Site/log"), 5120), Ok(()));
    assert_eq!(content(&image, "Site/log"), [0; 5120]);
    assert_eq!(validate(&image, &mut work), Ok(()));
}

#[test]
fn the_same_length_changes_nothing() {
    let (mut image, mut work) = site();
    let before = image.clone();
    assert_eq!(set_len(&mut image, &mut work, &path("Site/Jets"), 70), Ok(()));
    assert_eq!(image, before);
}
