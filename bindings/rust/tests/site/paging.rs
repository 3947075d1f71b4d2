//! Reads at an entry, views, and cursors that page through a stream.

use std::io::{BufRead, BufReader, ErrorKind, Read, Seek, SeekFrom};

use super::refusals::broken;
use super::{content, jets, log, sample, site};
use gyomrelas::{
    create_stream, find, path, read, read_at, remove, work_need, Cursor, Entry, Kind, ReadOnlyVolume, Refusal, View,
    Volume,
};

const SAMPLES: [&str; 3] = ["site.cfb", "nested.cfb", "site4.cfb"];

/// All streams of a sample, each with its path.
fn streams(image: &[u8]) -> Vec<(Vec<u16>, Entry)> {
    let mut work = vec![0; work_need(image.len())];
    let objects = ReadOnlyVolume::open(image, &mut work).and_then(|mut volume| volume.objects()).expect("short");
    let mut found = |path: Vec<u16>| {
        let entry = find(image, &mut work, &path).expect("listed");
        (path, entry)
    };
    objects.filter(|object| object.kind == Kind::Stream).map(|object| found(object.path)).collect()
}

#[test]
fn a_read_at_an_entry_is_the_read_at_its_path() {
    for name in SAMPLES {
        let (image, mut work) = sample(name);
        let need = work_need(image.len());
        for (path, entry) in streams(&image) {
            for offset in [0, 1, 63, 64, 65, 511, 512, 513, 4095, 4096, 4097, entry.size, entry.size + 1, u64::MAX] {
                for length in [0, 1, 7, 64, 513, 6000] {
                    let (mut due, mut out) = ([b'x'; 6000], [b'x'; 6000]);
                    let count = read(&image, &mut work, &path, offset, &mut due[..length]);
                    work.fill(7);
                    assert_eq!(read_at(&image, &mut work, entry.number, offset, &mut out[..length]), count);
                    assert_eq!(out, due);
                    assert!(work[..need].iter().all(|&number| number == 0) && work[need..] == [7]);
                }
            }
        }
    }
}

/// 33 comes before 24, and before what the out buffer has room for.
#[test]
fn an_entry_that_is_no_stream() {
    for name in SAMPLES {
        let (image, mut work) = sample(name);
        let numbers: Vec<u32> = streams(&image).iter().map(|(_, entry)| entry.number).collect();
        let others = (0..100).filter(|number| !numbers.contains(number)).chain([1 << 16, 1 << 31, u32::MAX]);
        for entry in others {
            for position in [0, 1, 5001, u64::MAX] {
                let mut out = [b'x'; 8];
                assert_eq!(read_at(&image, &mut work, entry, position, &mut out), Err(Refusal::BadEntry), "{entry}");
                assert_eq!(read_at(&image, &mut work, entry, position, &mut []), Err(Refusal::BadEntry));
                assert_eq!(out, [b'x'; 8]);
            }
        }
    }
}

#[test]
fn an_entry_that_comes_and_goes() {
    let (mut image, mut work) = sample("site4.cfb");
    let name = path("new");
    assert_eq!(create_stream(&mut image, &mut work, &name), Ok(()));
    let entry = find(&image, &mut work, &name).expect("created").number;
    assert_eq!(read_at(&image, &mut work, entry, 0, &mut [0; 4]), Ok(0));
    assert_eq!(read_at(&image, &mut work, entry, 1, &mut [0; 4]), Err(Refusal::Beyond));
    assert_eq!(remove(&mut image, &mut work, &name), Ok(()));
    assert_eq!(read_at(&image, &mut work, entry, 1, &mut [0; 4]), Err(Refusal::BadEntry));
}

#[test]
fn an_image_that_is_refused() {
    for (number, image) in broken() {
        let (_, mut work) = site();
        let view = View::open(&image);
        for entry in [0, 2, u32::MAX] {
            let mut out = [b'x'; 8];
            assert_eq!(read_at(&image, &mut work, entry, 0, &mut out).map_err(Refusal::number), Err(number));
            assert_eq!(view.read_at(&mut work, entry, 0, &mut out).map_err(Refusal::number), Err(number));
            assert_eq!(out, [b'x'; 8]);
        }
        let log = Entry { number: 2, kind: Kind::Stream, size: 5000 };
        assert_refused(view.cursor(&mut work, log), 0, number);
    }
}

/// A read at this position is refused, and leaves the cursor and the out buffer.
fn assert_refused(mut cursor: Cursor<'_>, position: u64, number: u32) {
    cursor.seek(SeekFrom::Start(position)).expect("no error");
    let mut out = [b'x'; 8];
    let error = cursor.read(&mut out).expect_err("refused");
    let refusal = Refusal::from_number(number).expect("its number");
    assert_eq!(error.get_ref().and_then(|inner| inner.downcast_ref()), Some(&refusal));
    assert_eq!((cursor.position(), out), (position, [b'x'; 8]));
}

#[test]
fn a_view_answers_as_plain_calls_do() {
    for name in SAMPLES {
        let (image, mut work) = sample(name);
        let (_, mut plain_work) = sample(name);
        let view = View::open(&image);
        assert!(std::ptr::eq(view.image(), &image[..]));
        for path in
            ["", "Site", "Site/log", "SITE/jets", "Pumps/Süd", "Timing", "gone", "Site/log/x", "/", "a!"].map(path)
        {
            assert_eq!(view.find(&mut work, &path), find(&image, &mut plain_work, &path));
            for offset in [0, 60, 70, 71, 4999, 5001] {
                let (mut due, mut out) = ([b'x'; 600], [b'x'; 600]);
                let count = read(&image, &mut plain_work, &path, offset, &mut due);
                assert_eq!(view.read(&mut work, &path, offset, &mut out), count);
                assert_eq!((out, &work), (due, &plain_work));
            }
        }
        for entry in (0..10).chain([u32::MAX]) {
            let (mut due, mut out) = ([b'x'; 600], [b'x'; 600]);
            let count = read_at(&image, &mut plain_work, entry, 3, &mut due);
            assert_eq!(view.read_at(&mut work, entry, 3, &mut out), count);
            assert_eq!((out, &work), (due, &plain_work));
        }
    }
}

/// Whatever the image: bytes of no length that is allowed, with a work buffer that is too short, and broken ones.
#[test]
fn opening_a_view_never_fails() {
    let (image, mut work) = site();
    for length in [0, 1, 1535, image.len() - 1] {
        assert_eq!(View::open(&image[..length]).find(&mut work, &[]), Err(Refusal::BadLength));
    }
    assert_eq!(View::open(&image).find(&mut work[..10], &[]), Err(Refusal::ShortWork));
    for (number, image) in broken() {
        assert_eq!(View::open(&image).find(&mut work, &[]).map_err(Refusal::number), Err(number));
    }
}

#[test]
fn volumes_read_at_entries_too() {
    for name in SAMPLES {
        let (image, mut work) = sample(name);
        let (mut other, mut other_work) = sample(name);
        let (_, mut plain_work) = sample(name);
        let read_only = ReadOnlyVolume::open(&image, &mut work).expect("valid");
        let volume = Volume::open(&mut other, &mut other_work).expect("valid");
        for entry in (0..40).chain([1 << 31, u32::MAX]) {
            for position in [0, 1, 64, 69, 70, 71, 512, 4096, 5000, 5001, u64::MAX] {
                let (mut plain, mut first, mut second) = ([b'x'; 600], [b'x'; 600], [b'x'; 600]);
                let count = read_at(&image, &mut plain_work, entry, position, &mut plain);
                assert_eq!(read_only.read_at(entry, position, &mut first), count);
                assert_eq!(volume.read_at(entry, position, &mut second), count);
                assert_eq!((first, second), (plain, plain));
            }
        }
    }
}

#[test]
fn pieces_follow_one_another() {
    for name in SAMPLES {
        let (image, mut work) = sample(name);
        for (path, entry) in streams(&image) {
            let due = content(&image, &String::from_utf16_lossy(&path));
            for length in [1, 7, 64, 511, 512, 4999, 5000, 5001] {
                let mut cursor = View::open(&image).cursor(&mut work, entry);
                let mut piece = vec![0; length];
                let mut bytes = Vec::new();
                loop {
                    let count = cursor.read(&mut piece).expect("no error");
                    bytes.extend_from_slice(&piece[..count]);
                    assert_eq!(cursor.position(), bytes.len() as u64);
                    if count == 0 {
                        break;
                    }
                }
                assert_eq!(bytes, due);
            }
        }
    }
}

#[test]
fn lines_come_one_by_one() {
    let (image, mut work) = site();
    let view = View::open(&image);
    let log = view.find(&mut work, &path("Site/log")).expect("there");
    let lines = BufReader::new(view.cursor(&mut work, log)).lines();
    assert!(lines.map(|line| line.expect("no error")).eq(vec!["line 7 of the site's log"; 200]));
}

/// What is left from the position on.
fn rest(cursor: &mut Cursor<'_>) -> Vec<u8> {
    let mut bytes = Vec::new();
    cursor.read_to_end(&mut bytes).expect("no error");
    bytes
}

#[test]
fn seeks_go_from_the_start_the_end_and_the_position() {
    let (image, mut work) = site();
    let view = View::open(&image);
    let entry = view.find(&mut work, &path("Site/Jets")).expect("there");
    let mut cursor = view.cursor(&mut work, entry);
    assert_eq!((cursor.entry(), cursor.position()), (entry, 0));
    assert_eq!(cursor.seek(SeekFrom::Start(60)).expect("no error"), 60);
    assert_eq!(rest(&mut cursor), jets()[60..]);
    assert_eq!(cursor.seek(SeekFrom::End(-13)).expect("no error"), 57);
    assert_eq!(rest(&mut cursor), jets()[57..]);
    assert_eq!(cursor.seek(SeekFrom::Current(-30)).expect("no error"), 40);
    assert_eq!(rest(&mut cursor), jets()[40..]);
    for to in [SeekFrom::Current(-71), SeekFrom::End(-71), SeekFrom::End(i64::MIN)] {
        assert_eq!(cursor.seek(to).expect_err("before the start").kind(), ErrorKind::InvalidInput);
        assert_eq!(cursor.position(), 70);
    }
    assert_eq!(cursor.seek(SeekFrom::Start(u64::MAX)).expect("no error"), u64::MAX);
    assert_eq!(cursor.seek(SeekFrom::Current(1)).expect_err("too large").kind(), ErrorKind::InvalidInput);
    assert_eq!(cursor.position(), u64::MAX);
}

/// At the end there are no bytes; behind it, and where the entry is no stream, a read is refused.
#[test]
fn a_refusal_leaves_the_cursor() {
    for name in ["site.cfb", "site4.cfb"] {
        let (image, mut work) = sample(name);
        let view = View::open(&image);
        let entry = view.find(&mut work, &path("Site/Jets")).expect("there");
        let mut cursor = view.cursor(&mut work, entry);
        cursor.seek(SeekFrom::End(0)).expect("no error");
        assert_eq!((cursor.read(&mut [0; 4]).expect("no error"), cursor.position()), (0, 70));
        for position in [71, 1 << 32, u64::MAX] {
            assert_refused(view.cursor(&mut work, entry), position, 24);
        }
        for path in ["", "Site"].map(path) {
            let entry = view.find(&mut work, &path).expect("there");
            for position in [0, 71, u64::MAX] {
                assert_refused(view.cursor(&mut work, entry), position, 33);
            }
        }
        assert_refused(view.cursor(&mut [], entry), 0, 2);
    }
}

#[test]
fn a_stream_is_the_same_by_every_way() {
    let (image, mut work) = site();
    let view = View::open(&image);
    let entry = view.find(&mut work, &path("Site/log")).expect("there");
    assert_eq!(rest(&mut view.cursor(&mut work, entry)), log());
    let mut bytes = Vec::new();
    let volume = ReadOnlyVolume::open(&image, &mut work).expect("valid");
    volume.stream(&path("Site/log")).expect("a stream").read_to_end(&mut bytes).expect("no error");
    assert_eq!(bytes, log());
}
