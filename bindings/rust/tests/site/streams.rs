//! Streams by `std::io::Read` and `std::io::Seek`.

use std::io::{self, BufRead, BufReader, ErrorKind, Read, Seek, SeekFrom};

use super::{content, jets, log, sample, site};
use gyomrelas::{path, Kind, ReadOnlyVolume, Refusal, Stream, Volume};

#[test]
fn all_bytes_are_those_of_a_read() {
    for name in ["site.cfb", "nested.cfb", "site4.cfb"] {
        let (mut image, mut work) = sample(name);
        let before = image.clone();
        let mut volume = Volume::open(&mut image, &mut work).expect("valid");
        for object in volume.objects().expect("short").filter(|object| object.kind == Kind::Stream) {
            let mut stream = volume.stream(&object.path).expect("a stream");
            let mut bytes = Vec::new();
            assert_eq!(stream.read_to_end(&mut bytes).expect("no error"), bytes.len());
            assert_eq!(bytes, content(&before, &String::from_utf16_lossy(&object.path)));
            assert_eq!(stream.size(), object.size);
            assert_eq!(stream.stream_position().expect("no error"), object.size);
        }
    }
}

#[test]
fn pieces_follow_one_another() {
    let (image, mut work) = site();
    let volume = ReadOnlyVolume::open(&image, &mut work).expect("valid");
    for length in [1, 7, 64, 511, 4999, 5000, 5001] {
        let mut stream = volume.stream(&path("Site/log")).expect("a stream");
        let mut bytes = Vec::new();
        let mut piece = vec![0; length];
        loop {
            let count = stream.read(&mut piece).expect("no error");
            if count == 0 {
                break;
            }
            bytes.extend_from_slice(&piece[..count]);
        }
        assert_eq!(bytes, log());
    }
}

#[test]
fn lines_come_one_by_one() {
    let (image, mut work) = site();
    let volume = ReadOnlyVolume::open(&image, &mut work).expect("valid");
    let lines = BufReader::new(volume.stream(&path("Site/log")).expect("a stream")).lines();
    assert!(lines.map(|line| line.expect("no error")).eq(vec!["line 7 of the site's log"; 200]));
}

/// What is left from the position on.
fn rest(stream: &mut Stream<'_>) -> Vec<u8> {
    let mut bytes = Vec::new();
    stream.read_to_end(&mut bytes).expect("no error");
    bytes
}

#[test]
fn seeks_go_from_the_start_the_end_and_the_position() {
    let (image, mut work) = site();
    let volume = ReadOnlyVolume::open(&image, &mut work).expect("valid");
    let mut stream = volume.stream(&path("Site/Jets")).expect("a stream");
    assert_eq!(stream.seek(SeekFrom::Start(60)).expect("no error"), 60);
    assert_eq!(rest(&mut stream), jets()[60..]);
    assert_eq!(stream.seek(SeekFrom::End(-13)).expect("no error"), 57);
    assert_eq!(rest(&mut stream), jets()[57..]);
    assert_eq!(stream.seek(SeekFrom::Current(-30)).expect("no error"), 40);
    assert_eq!(stream.seek(SeekFrom::Current(5)).expect("no error"), 45);
    assert_eq!(rest(&mut stream), jets()[45..]);
    stream.rewind().expect("no error");
    assert_eq!(rest(&mut stream), jets());
}

#[test]
fn there_is_nothing_behind_the_end() {
    let (image, mut work) = site();
    let volume = ReadOnlyVolume::open(&image, &mut work).expect("valid");
    let mut stream = volume.stream(&path("Site/Jets")).expect("a stream");
    for (to, position) in [
        (SeekFrom::End(0), 70),
        (SeekFrom::End(1), 71),
        (SeekFrom::Start(u64::MAX), u64::MAX),
        (SeekFrom::Start(71), 71),
    ] {
        assert_eq!(stream.seek(to).expect("no error"), position);
        let mut out = [b'x'; 4];
        assert_eq!(stream.read(&mut out).expect("no error"), 0);
        assert_eq!(out, [b'x'; 4]);
        assert_eq!(stream.stream_position().expect("no error"), position);
    }
    assert_eq!(stream.read_exact(&mut [0]).expect_err("no byte").kind(), ErrorKind::UnexpectedEof);
}

#[test]
fn a_seek_to_no_position_is_an_error() {
    let (image, mut work) = site();
    let volume = ReadOnlyVolume::open(&image, &mut work).expect("valid");
    let mut stream = volume.stream(&path("Site/Jets")).expect("a stream");
    stream.seek(SeekFrom::Start(69)).expect("no error");
    for to in [SeekFrom::Current(-70), SeekFrom::End(-71), SeekFrom::End(i64::MIN)] {
        assert_eq!(stream.seek(to).expect_err("before the start").kind(), ErrorKind::InvalidInput);
        assert_eq!(stream.stream_position().expect("no error"), 69);
    }
    stream.seek(SeekFrom::Start(u64::MAX)).expect("no error");
    assert_eq!(stream.seek(SeekFrom::Current(1)).expect_err("too large").kind(), ErrorKind::InvalidInput);
    stream.rewind().expect("no error");
    assert_eq!(rest(&mut stream), jets());
}

#[test]
fn only_streams_are_given() {
    let (image, mut work) = site();
    let volume = ReadOnlyVolume::open(&image, &mut work).expect("valid");
    for (name, refusal) in [
        ("Site/", Refusal::BadPath),
        ("Site/log!", Refusal::BadPath),
        ("Site/logs", Refusal::NotFound),
        ("Site/log/x", Refusal::StreamOnTheWay),
        ("Site", Refusal::NotAStream),
        ("", Refusal::NotAStream),
    ] {
        assert_eq!(volume.stream(&path(name)).err(), Some(refusal), "{name}");
    }
}

#[test]
fn a_refusal_is_an_error_of_io() {
    for (refusal, kind) in [
        (Refusal::BadLength, ErrorKind::InvalidData),
        (Refusal::ShortWork, ErrorKind::InvalidInput),
        (Refusal::Owners, ErrorKind::InvalidData),
        (Refusal::BadPath, ErrorKind::InvalidInput),
        (Refusal::NotFound, ErrorKind::NotFound),
        (Refusal::NotAStream, ErrorKind::InvalidInput),
        (Refusal::TooFewFree, ErrorKind::StorageFull),
        (Refusal::BadEntry, ErrorKind::InvalidInput),
    ] {
        let error = io::Error::from(refusal);
        assert_eq!(error.kind(), kind);
        assert_eq!(error.to_string(), refusal.to_string());
        assert_eq!(error.get_ref().and_then(|inner| inner.downcast_ref()), Some(&refusal));
    }
}
