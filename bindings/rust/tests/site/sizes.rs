//! Sizes of which older programs left the upper half unset: only the lower one counts.

use std::io::Read;

use super::refusals::{JETS, LOG, ROOT, SITE};
use super::{content, jets, log, site};
use gyomrelas::{find, list, overwrite, path, read, set_len, validate, Refusal, Volume};

const UPPER: usize = 124;
const RUBBISH: [u32; 6] = [1, 0x100, 0x1_0000, 0x0100_0000, 0x8000_0000, u32::MAX];

/// The sample with this upper half in each size that may have one.
fn site_with(upper: u32) -> (Vec<u8>, Vec<u32>) {
    let (mut image, work) = site();
    for entry in [ROOT, LOG, JETS] {
        image[entry + UPPER..][..4].copy_from_slice(&upper.to_le_bytes());
    }
    (image, work)
}

fn upper_half(image: &[u8], entry: usize) -> u32 {
    u32::from_le_bytes(image[entry + UPPER..][..4].try_into().expect("four bytes"))
}

#[test]
fn queries_give_what_they_give_with_zeros_there() {
    let (plain, mut plain_work) = site();
    for upper in RUBBISH {
        let (image, mut work) = site_with(upper);
        assert_eq!(validate(&image, &mut work), Ok(()), "{upper:X}");
        for name in ["", "Site", "Site/log", "Site/Jets"].map(path) {
            assert_eq!(find(&image, &mut work, &name), find(&plain, &mut plain_work, &name));
        }
        assert_eq!([content(&image, "Site/log"), content(&image, "Site/Jets")], [log(), jets()]);
        let mut out = [0; 50];
        assert_eq!(list(&image, &mut work, &mut out), Ok(50));
        assert_eq!(out, *b"objects 3\nD 0 Site\nF 5000 Site/log\nF 70 Site/Jets\n");
        for offset in [5001, 1 << 32, ((upper as u64) << 32) + 5000] {
            assert_eq!(read(&image, &mut work, &path("Site/log"), offset, &mut out), Err(Refusal::Beyond));
        }
    }
}

#[test]
fn only_another_length_clears_the_upper_half() {
    for upper in RUBBISH {
        let (mut image, mut work) = site_with(upper);
        let before = image.clone();
        let whole = |size: u64| ((upper as u64) << 32) + size;
        for (name, length, answer) in [
            ("Site/log", 5000, Ok(())),
            ("Site/log", 5121, Err(Refusal::TooFewFree)),
            ("Site/log", whole(5000), Err(Refusal::TooFewFree)),
            ("Site/log", 4095, Err(Refusal::TooFewFree)),
            ("Site/Jets", 70, Ok(())),
            ("Site/Jets", 129, Err(Refusal::TooFewFree)),
            ("Site/Jets", whole(70), Err(Refusal::TooFewFree)),
        ] {
            assert_eq!(set_len(&mut image, &mut work, &path(name), length), answer, "{name} {length}");
            assert_eq!(image, before);
        }
        assert_eq!(overwrite(&mut image, &mut work, &path("Site/log"), 4990, b"0123456789"), Ok(()));
        assert_eq!(overwrite(&mut image, &mut work, &path("Site/log"), 4990, b"0123456789A"), Err(Refusal::Beyond));
        assert_eq!([ROOT, LOG, JETS].map(|entry| upper_half(&image, entry)), [upper; 3]);

        assert_eq!(set_len(&mut image, &mut work, &path("Site/log"), 5001), Ok(()));
        assert_eq!([ROOT, LOG, JETS].map(|entry| upper_half(&image, entry)), [upper, 0, upper]);
        assert_eq!(set_len(&mut image, &mut work, &path("Site/Jets"), 0), Ok(()));
        assert_eq!([ROOT, LOG, JETS].map(|entry| upper_half(&image, entry)), [upper, 0, 0]);
        assert_eq!(content(&image, "Site/log"), [&log()[..4990], b"0123456789\0"].concat());
    }
}

#[test]
fn a_length_over_the_cutoff_clears_it_too() {
    let (mut image, mut work) = site_with(u32::MAX);
    assert_eq!(set_len(&mut image, &mut work, &path("Site/Jets"), 0), Ok(()));
    assert_eq!(set_len(&mut image, &mut work, &path("Site/log"), 128), Ok(()));
    assert_eq!([ROOT, LOG, JETS].map(|entry| upper_half(&image, entry)), [u32::MAX, 0, 0]);
    image[LOG + UPPER..][..4].fill(0xCD);
    assert_eq!(set_len(&mut image, &mut work, &path("Site/log"), 5000), Ok(()));
    assert_eq!(upper_half(&image, LOG), 0);
    assert_eq!(content(&image, "Site/log"), [&log()[..128], &[0; 4872]].concat());
}

#[test]
fn an_empty_stream_may_have_it_too() {
    let (mut image, mut work) = site();
    let name = path("Site/Jets");
    assert_eq!(set_len(&mut image, &mut work, &name, 0), Ok(()));
    image[JETS + UPPER + 3] = 0x80;
    assert_eq!(find(&image, &mut work, &name).map(|entry| entry.size), Ok(0));
    assert_eq!(set_len(&mut image, &mut work, &name, 1 << 63), Err(Refusal::TooFewFree));
    assert_eq!(set_len(&mut image, &mut work, &name, 0), Ok(()));
    assert_eq!(upper_half(&image, JETS), 0x8000_0000);
    assert_eq!(set_len(&mut image, &mut work, &name, 128), Ok(()));
    assert_eq!(upper_half(&image, JETS), 0);
    assert_eq!(content(&image, "Site/Jets"), [0; 128]);
}

#[test]
fn opened_volumes_and_streams_go_by_the_lower_half() {
    let (mut image, mut work) = site_with(u32::MAX);
    let mut volume = Volume::open(&mut image, &mut work).expect("valid");
    let sizes: Vec<u64> = volume.objects().expect("short").map(|object| object.size).collect();
    assert_eq!(sizes, [0, 5000, 70]);
    let mut bytes = Vec::new();
    let mut stream = volume.stream(&path("Site/Jets")).expect("a stream");
    assert_eq!(stream.size(), 70);
    assert_eq!(stream.read_to_end(&mut bytes).expect("no error"), 70);
    assert_eq!(bytes, jets());
    assert_eq!(volume.set_len(&path("Site/Jets"), 70), Ok(()));
    assert_eq!(upper_half(volume.image(), JETS), u32::MAX);
    assert_eq!(volume.set_len(&path("Site/Jets"), 71), Ok(()));
    assert_eq!([ROOT, LOG, JETS].map(|entry| upper_half(volume.image(), entry)), [u32::MAX, u32::MAX, 0]);
}

#[test]
fn a_storage_has_no_size() {
    for byte in 120..128 {
        let (mut image, mut work) = site_with(u32::MAX);
        image[SITE + byte] = 1;
        assert_eq!(validate(&image, &mut work), Err(Refusal::Entries), "{byte}");
        assert_eq!(set_len(&mut image, &mut work, &path("Site/log"), 0), Err(Refusal::Entries));
    }
}
