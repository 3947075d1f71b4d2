//! Streams and storages that are created and removed.

use std::io;

use super::{content, jets, listed, log, sample, site};
use gyomrelas::{
    create_storage, create_stream, find, overwrite, path, remove, set_len, validate, work_need, Kind, Refusal, Volume,
};

#[test]
fn a_new_stream_is_empty_and_grows() {
    let (mut image, mut work) = sample("site4.cfb");
    let name = path("site/Pump");
    assert_eq!(create_stream(&mut image, &mut work, &name), Ok(()));
    let found = find(&image, &mut work, &path("SITE/PUMP")).expect("it is there");
    assert_eq!((found.number, found.kind, found.size), (4, Kind::Stream, 0));
    assert_eq!(listed(&image), "objects 4\nD 0 Site\nF 5000 Site/log\nF 70 Site/Jets\nF 0 Site/Pump\n");
    assert_eq!(set_len(&mut image, &mut work, &path("Site/Jets"), 64), Ok(()));
    assert_eq!(set_len(&mut image, &mut work, &name, 60), Ok(()));
    assert_eq!(overwrite(&mut image, &mut work, &name, 50, b"0123456789"), Ok(()));
    assert_eq!(content(&image, "Site/Pump"), [&[0; 50], &b"0123456789"[..]].concat());
    assert_eq!((content(&image, "Site/log"), content(&image, "Site/Jets")), (log(), jets()[..64].to_vec()));
    assert_eq!(validate(&image, &mut work), Ok(()));
}

#[test]
fn storages_are_removed_from_the_inside() {
    let (mut image, mut work) = sample("site4.cfb");
    let before = image.clone();
    for name in ["a", "a/b", "a/b/c"] {
        assert_eq!(create_storage(&mut image, &mut work, &path(name)), Ok(()));
    }
    assert_eq!(find(&image, &mut work, &path("A/B/C")).map(|entry| entry.kind), Ok(Kind::Storage));
    for name in ["a", "a/b"] {
        assert_eq!(remove(&mut image, &mut work, &path(name)), Err(Refusal::NotEmpty));
    }
    for name in ["a/b/c", "A/B", "a"] {
        assert_eq!(remove(&mut image, &mut work, &path(name)), Ok(()));
    }
    // the sample's own entries are all black
    assert_eq!(image, before);
}

#[test]
fn a_removed_stream_leaves_its_entry_and_its_sectors() {
    let (mut image, mut work) = site();
    let size =
        |image: &[u8], name| find(image, &mut vec![0; work_need(image.len())], &path(name)).map(|entry| entry.size);
    assert_eq!(create_stream(&mut image, &mut work, &path("new")), Err(Refusal::NoBlankEntry));
    assert_eq!(remove(&mut image, &mut work, &path("SITE/LOG")), Ok(()));
    assert_eq!(size(&image, "Site/log"), Err(Refusal::NotFound));
    assert_eq!(listed(&image), "objects 2\nD 0 Site\nF 70 Site/Jets\n");
    assert_eq!(content(&image, "Site/Jets"), jets());
    // the same name again has nothing of what it had
    assert_eq!(create_stream(&mut image, &mut work, &path("Site/log")), Ok(()));
    assert_eq!(size(&image, "Site/log"), Ok(0));
    assert_eq!(set_len(&mut image, &mut work, &path("Site/log"), 5121), Err(Refusal::TooFewFree));
    assert_eq!(set_len(&mut image, &mut work, &path("Site/log"), 5120), Ok(()));
    assert_eq!(content(&image, "Site/log"), [0; 5120]);
    assert_eq!(create_storage(&mut image, &mut work, &path("new")), Err(Refusal::NoBlankEntry));
    assert_eq!(validate(&image, &mut work), Ok(()));
}

#[test]
fn what_is_refused_changes_nothing() {
    let (mut image, mut work) = site();
    let before = image.clone();
    for (name, created, removed) in [
        ("Site//x", Refusal::BadPath, Refusal::BadPath),
        ("Site/x!", Refusal::BadPath, Refusal::BadPath),
        ("gone/x", Refusal::NotFound, Refusal::NotFound),
        ("Site/log/x", Refusal::StreamOnTheWay, Refusal::StreamOnTheWay),
        ("Site", Refusal::AlreadyThere, Refusal::NotEmpty),
        ("sITE", Refusal::AlreadyThere, Refusal::NotEmpty),
        ("", Refusal::AlreadyThere, Refusal::RootRemoved),
        ("Site/x", Refusal::NoBlankEntry, Refusal::NotFound),
    ] {
        assert_eq!(create_stream(&mut image, &mut work, &path(name)), Err(created), "{name}");
        assert_eq!(create_storage(&mut image, &mut work, &path(name)), Err(created), "{name}");
        assert_eq!(remove(&mut image, &mut work, &path(name)), Err(removed), "{name}");
        assert_eq!(image, before);
    }
}

/// One list of calls by either way.
#[test]
fn opened_calls_leave_what_plain_ones_leave() {
    for name in ["site.cfb", "nested.cfb", "site4.cfb"] {
        let (mut image, mut work) = sample(name);
        let (mut plain, mut plain_work) = sample(name);
        let mut volume = Volume::open(&mut image, &mut work).expect("valid");
        let paths =
            ["Site/Jets", "note", "x", "x/y", "Site/log", "", "gone/x", "Timing/x", "X", "Site", "x//y", "x/y", "x"];
        for (round, name) in paths.iter().cycle().take(8 * paths.len()).enumerate() {
            let name = path(name);
            let (answer, opened) = match round / 2 % 3 {
                0 => (remove(&mut plain, &mut plain_work, &name), volume.remove(&name)),
                1 => (create_storage(&mut plain, &mut plain_work, &name), volume.create_storage(&name)),
                _ => (create_stream(&mut plain, &mut plain_work, &name), volume.create_stream(&name)),
            };
            assert_eq!(opened, answer);
            assert_eq!(volume.set_len(&name, 65), set_len(&mut plain, &mut plain_work, &name, 65));
            assert_eq!(volume.image(), plain);
        }
        volume.close();
        assert_eq!((image, work), (plain, plain_work));
    }
}

#[test]
fn refusals_as_errors_of_std() {
    let kinds = [Refusal::NotEmpty, Refusal::AlreadyThere, Refusal::NoBlankEntry, Refusal::RootRemoved]
        .map(|refusal| io::Error::from(refusal).kind());
    let due = [
        io::ErrorKind::DirectoryNotEmpty,
        io::ErrorKind::AlreadyExists,
        io::ErrorKind::StorageFull,
        io::ErrorKind::InvalidInput,
    ];
    assert_eq!(kinds, due);
}
