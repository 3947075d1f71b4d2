//! That the calls on an opened volume do what the plain calls do, and what opening and closing leave.

use std::collections::BTreeSet;
use std::thread;

use super::refusals::broken;
use super::{content, sample, site};
use gyomrelas::{find, list, overwrite, path, read, set_len, validate, work_need, ReadOnlyVolume, Refusal, Volume};

const SAMPLES: [&str; 3] = ["site.cfb", "nested.cfb", "site4.cfb"];

/// Paths that lead somewhere in one of the samples, and paths that are refused for each reason.
const PATHS: [&str; 25] = [
    "",
    "Site",
    "Site/log",
    "sITE/JETS",
    "note",
    "Pumps",
    "Pumps/Süd",
    "pUMPS/SÜD",
    "Pumps/Sud",
    "Pumps/S×d",
    "Pumps/süD/x",
    "Pumps/Nord",
    "Pumps/Nord/gauge",
    "pumps/nord/VALVE",
    "Timing",
    "Site/logs",
    "Pumps/Ost/gauge",
    "Site/log/x",
    "Timing/x/y",
    "/",
    "Site//log",
    "Pumps/",
    "Site\\log",
    "a:b",
    "Site/log!",
];

/// Offsets and lengths on each side of the lines that streams, sectors, mini sectors and the cutoff draw.
const NUMBERS: [u64; 22] =
    [0, 1, 14, 15, 16, 63, 64, 65, 70, 71, 128, 511, 512, 4095, 4096, 4097, 5000, 5001, 8192, 8193, 1 << 32, u64::MAX];

/// The first numbers of the work buffer are zero, as many as are needed, and the one behind them is as it was.
fn assert_closed(image: &[u8], work: &[u32]) {
    let need = work_need(image.len());
    assert!(work[..need].iter().all(|&number| number == 0));
    assert_eq!(work[need..], [7]);
}

#[test]
fn queries_give_what_plain_ones_give() {
    for name in SAMPLES {
        let (image, mut work) = sample(name);
        let (mut other, mut other_work) = sample(name);
        let (_, mut plain_work) = sample(name);
        let read_only = ReadOnlyVolume::open(&image, &mut work).expect("valid");
        let volume = Volume::open(&mut other, &mut other_work).expect("valid");
        for path in PATHS.map(path) {
            let found = find(&image, &mut plain_work, &path);
            assert_eq!(read_only.find(&path), found);
            assert_eq!(volume.find(&path), found);
            for offset in NUMBERS {
                for length in [0, 1, 64, 600, 6000] {
                    let (mut plain, mut first, mut second) = ([b'x'; 6000], [b'x'; 6000], [b'x'; 6000]);
                    let count = read(&image, &mut plain_work, &path, offset, &mut plain[..length]);
                    assert_eq!(read_only.read(&path, offset, &mut first[..length]), count);
                    assert_eq!(volume.read(&path, offset, &mut second[..length]), count);
                    assert_eq!((first, second), (plain, plain));
                }
            }
        }
    }
}

#[test]
fn listings_are_those_of_plain_calls() {
    for name in SAMPLES {
        let (image, mut work) = sample(name);
        let (mut other, mut other_work) = sample(name);
        let (_, mut plain_work) = sample(name);
        let mut read_only = ReadOnlyVolume::open(&image, &mut work).expect("valid");
        let mut volume = Volume::open(&mut other, &mut other_work).expect("valid");
        for length in 0..150 {
            let (mut plain, mut first, mut second) = ([b'x'; 150], [b'x'; 150], [b'x'; 150]);
            let count = list(&image, &mut plain_work, &mut plain[..length]);
            assert_eq!(read_only.list(&mut first[..length]), count);
            assert_eq!(volume.list(&mut second[..length]), count);
            assert_eq!((first, second), (plain, plain));
        }
    }
}

#[test]
fn edits_leave_what_plain_ones_leave() {
    let mut answers = BTreeSet::new();
    for name in SAMPLES {
        let (mut image, mut work) = sample(name);
        let (mut plain, mut plain_work) = sample(name);
        let mut volume = Volume::open(&mut image, &mut work).expect("valid");
        // one list of edits on one image, with queries in between
        for (round, number) in NUMBERS.into_iter().cycle().take(3 * NUMBERS.len()).enumerate() {
            // with the units that it gives up, others pass the cutoff
            let new_len = if round % 4 == 3 { 0 } else { number };
            let bytes = vec![round as u8; 7 * round];
            for path in PATHS.map(path) {
                let answer = set_len(&mut plain, &mut plain_work, &path, new_len);
                assert_eq!(volume.set_len(&path, new_len), answer);
                assert_eq!(volume.image(), plain);
                answers.insert(answer.map_err(Refusal::number).err());
                assert_eq!(volume.find(&path), find(&plain, &mut plain_work, &path));

                let answer = overwrite(&mut plain, &mut plain_work, &path, number / 2, &bytes);
                assert_eq!(volume.overwrite(&path, number / 2, &bytes), answer);
                assert_eq!(volume.image(), plain);
                answers.insert(answer.map_err(Refusal::number).err());
            }
            let (mut out, mut plain_out) = ([0; 200], [0; 200]);
            assert_eq!(volume.list(&mut out), list(&plain, &mut plain_work, &mut plain_out));
            assert_eq!(out, plain_out);
        }
        volume.close();
        assert_eq!(image, plain);
        assert_eq!(work, plain_work);
        assert_eq!(validate(&image, &mut work), Ok(()));
    }
    // every answer that an edit has was compared
    assert!(answers.into_iter().eq([None].into_iter().chain([20, 21, 22, 23, 24, 26].map(Some))));
}

#[test]
fn a_stream_passes_the_cutoff_as_it_does_by_plain_calls() {
    for name in ["site.cfb", "site4.cfb"] {
        let (mut image, mut work) = sample(name);
        let (mut plain, mut plain_work) = sample(name);
        let mut volume = Volume::open(&mut image, &mut work).expect("valid");
        let (log, jets) = (path("Site/log"), path("Site/Jets"));
        for (path, new_len, answer) in [
            (&jets, 4096, Err(Refusal::TooFewFree)),
            (&log, 64, Err(Refusal::TooFewFree)),
            (&jets, 64, Ok(())),
            (&log, 64, Ok(())),
            (&jets, 4096, Ok(())),
            (&jets, 65, Err(Refusal::TooFewFree)),
            (&jets, 1, Ok(())),
            (&log, 5000, Ok(())),
            (&jets, 70, Ok(())),
        ] {
            assert_eq!(volume.set_len(path, new_len), answer, "{name} {new_len}");
            assert_eq!(set_len(&mut plain, &mut plain_work, path, new_len), answer);
            assert_eq!(volume.image(), plain);
        }
        volume.close();
        assert_eq!(content(&image, "Site/log"), [&super::log()[..64], &[0; 4936]].concat());
        assert_eq!(content(&image, "Site/Jets"), [&super::jets()[..1], &[0; 69]].concat());
        assert_closed(&image, &work);
    }
}

#[test]
fn a_line_is_added_at_the_end() {
    let (mut image, mut work) = site();
    let log = path("Site/log");
    let mut volume = Volume::open(&mut image, &mut work).expect("valid");
    assert_eq!(volume.set_len(&log, 5004), Ok(()));
    assert_eq!(volume.overwrite(&log, 5000, b"end\n"), Ok(()));
    let mut out = [0; 8];
    assert_eq!(volume.read(&log, 4996, &mut out), Ok(8));
    assert_eq!(&out, b"log\nend\n");
}

#[test]
fn a_volume_that_is_dropped_is_closed() {
    for name in SAMPLES {
        let (mut image, mut work) = sample(name);
        drop(Volume::open(&mut image, &mut work).expect("valid"));
        assert_closed(&image, &work);

        work.fill(7);
        let mut volume = Volume::open(&mut image, &mut work).expect("valid");
        assert_eq!(volume.set_len(&path("Site/log"), 4096).is_ok(), name != "nested.cfb");
        assert!(volume.list(&mut [0; 1000]).is_ok());
        drop(volume);
        assert_closed(&image, &work);

        work.fill(7);
        drop(ReadOnlyVolume::open(&image, &mut work).expect("valid"));
        assert_closed(&image, &work);
    }
}

#[test]
fn a_volume_that_is_closed_can_be_opened_again() {
    let (mut image, mut work) = site();
    for _ in 0..3 {
        let volume = Volume::open(&mut image, &mut work).expect("valid");
        assert_eq!(volume.find(&path("Site/log")).map(|entry| entry.size), Ok(5000));
        volume.close();
        let volume = ReadOnlyVolume::open(&image, &mut work).expect("valid");
        assert_eq!(volume.image(), image);
        volume.close();
    }
    assert_closed(&image, &work);
}

#[test]
fn a_volume_that_is_leaked_leaves_buffers_that_can_be_used() {
    let (mut image, mut work) = site();
    std::mem::forget(Volume::open(&mut image, &mut work).expect("valid"));
    assert!(work.iter().any(|&number| number != 0));
    assert_eq!(validate(&image, &mut work), Ok(()));
    assert!(Volume::open(&mut image, &mut work).is_ok());
}

#[test]
fn opening_refuses_as_validation_does() {
    let (mut image, work) = site();
    let need = work_need(image.len());
    for (length, numbers) in
        [(0, need), (1535, need), (image.len() - 1, need), (image.len(), need - 1), (image.len(), 0)]
    {
        let (mut plain_work, mut opened_work) = (work.clone(), work.clone());
        let refusal = validate(&image[..length], &mut plain_work[..numbers]).expect_err("refused");
        assert_eq!(Volume::open(&mut image[..length], &mut opened_work[..numbers]).err(), Some(refusal));
        assert_eq!(ReadOnlyVolume::open(&image[..length], &mut opened_work[..numbers]).err(), Some(refusal));
        assert_eq!(opened_work, work);
    }
    for (number, mut image) in broken() {
        let before = image.clone();
        let (mut first, mut second) = (work.clone(), work.clone());
        assert_eq!(ReadOnlyVolume::open(&image, &mut first).err().map(Refusal::number), Some(number));
        assert_eq!(Volume::open(&mut image, &mut second).err().map(Refusal::number), Some(number));
        assert_eq!(image, before);
        assert_closed(&image, &first);
        assert_closed(&image, &second);
    }
}

#[test]
fn threads_can_share_a_volume() {
    let (image, mut work) = site();
    let volume = ReadOnlyVolume::open(&image, &mut work).expect("valid");
    thread::scope(|scope| {
        for (name, size) in [("Site/log", 5000), ("Site/Jets", 70)] {
            let volume = &volume;
            scope.spawn(move || {
                for _ in 0..100 {
                    assert_eq!(volume.read(&path(name), 0, &mut [0; 6000]), Ok(size));
                }
            });
        }
    });
}
