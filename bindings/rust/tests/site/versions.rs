//! Version 4, in which sectors have 4,096 bytes, the header counts the directory's sectors, and all of a size counts:
//! samples/site4.cfb has the objects of samples/site.cfb, and no sector and no mini sector free.

use super::{content, jets, log, sample, site};
use gyomrelas::{find, list, overwrite, path, read, set_len, validate, work_need, Refusal, Volume};

const SECTOR: usize = 4096;
/// Where the version and the number of the directory's sectors stand in the header.
const MAJOR: usize = 26;
const COUNT: usize = 40;
/// Where the entries stand: the directory is sector 2.
const ROOT: usize = 3 * SECTOR;
const LOG: usize = ROOT + 2 * 128;
const JETS: usize = ROOT + 3 * 128;

fn site4() -> (Vec<u8>, Vec<u32>) {
    sample("site4.cfb")
}

#[test]
fn queries_give_what_they_give_in_version_3() {
    let ((image, mut work), (third, mut third_work)) = (site4(), site());
    assert_eq!(validate(&image, &mut work), Ok(()));
    for name in ["", "Site", "Site/log", "Site/Jets", "Site/logs", "Site/log/x", "Site//log"].map(path) {
        assert_eq!(find(&image, &mut work, &name), find(&third, &mut third_work, &name));
    }
    assert_eq!([content(&image, "Site/log"), content(&image, "Site/Jets")], [log(), jets()]);
    let (mut out, mut third_out) = ([0; 50], [0; 50]);
    assert_eq!(list(&image, &mut work, &mut out), Ok(50));
    assert_eq!(list(&third, &mut third_work, &mut third_out), Ok(50));
    assert_eq!(out, third_out);
    // over the end of a sector
    assert_eq!(read(&image, &mut work, &path("Site/log"), 4090, &mut out), Ok(50));
    assert_eq!(out, log()[4090..4140]);
}

#[test]
fn the_work_buffer_goes_by_the_length_alone() {
    let (image, mut work) = site4();
    let need = work_need(image.len());
    assert_eq!(need, 104 * 7);
    assert_eq!(validate(&image, &mut work[..need - 1]), Err(Refusal::ShortWork));
    assert_eq!(validate(&image, &mut work[..need]), Ok(()));
    assert!(work[..need].iter().all(|&number| number == 0));
    assert_eq!(work[need..], [7]);
}

#[test]
fn bytes_4096_need_one_sector() {
    let (mut image, mut work) = site4();
    let (name, other) = (path("Site/log"), path("Site/Jets"));
    assert_eq!(overwrite(&mut image, &mut work, &name, 4090, b"over an end"), Ok(()));
    assert_eq!(set_len(&mut image, &mut work, &name, 8193), Err(Refusal::TooFewFree));
    assert_eq!(set_len(&mut image, &mut work, &name, 8192), Ok(()));
    let expected = [&log()[..4090], b"over an end", &log()[4101..], &[0; 3192]].concat();
    assert_eq!(content(&image, "Site/log"), expected);
    // none is free before a second sector is given up
    assert_eq!(set_len(&mut image, &mut work, &other, 0), Ok(()));
    assert_eq!(set_len(&mut image, &mut work, &name, 4097), Ok(()));
    assert_eq!(set_len(&mut image, &mut work, &other, 4096), Err(Refusal::TooFewFree));
    assert_eq!(set_len(&mut image, &mut work, &name, 4096), Ok(()));
    assert_eq!(set_len(&mut image, &mut work, &other, 4097), Err(Refusal::TooFewFree));
    assert_eq!(set_len(&mut image, &mut work, &other, 4096), Ok(()));
    assert_eq!(content(&image, "Site/Jets"), [0; 4096]);
    assert_eq!(content(&image, "Site/log"), expected[..4096]);
    assert_eq!(validate(&image, &mut work), Ok(()));
}

#[test]
fn one_sector_is_enough_over_the_cutoff() {
    let (mut image, mut work) = site4();
    let (name, other) = (path("Site/log"), path("Site/Jets"));
    assert_eq!(set_len(&mut image, &mut work, &other, 4096), Err(Refusal::TooFewFree));
    assert_eq!(set_len(&mut image, &mut work, &name, 4096), Ok(()));
    assert_eq!(set_len(&mut image, &mut work, &other, 4097), Err(Refusal::TooFewFree));
    assert_eq!(set_len(&mut image, &mut work, &other, 4096), Ok(()));
    assert_eq!(content(&image, "Site/Jets"), [jets(), vec![0; 4026]].concat());
    assert_eq!(set_len(&mut image, &mut work, &name, 129), Err(Refusal::TooFewFree));
    assert_eq!(set_len(&mut image, &mut work, &name, 128), Ok(()));
    assert_eq!(content(&image, "Site/log"), log()[..128]);
    assert_eq!(set_len(&mut image, &mut work, &other, 8192), Ok(()));
    assert_eq!(content(&image, "Site/Jets"), [jets(), vec![0; 8122]].concat());
    assert_eq!(validate(&image, &mut work), Ok(()));
}

#[test]
fn an_opened_volume_goes_by_the_version() {
    let (mut image, mut work) = site4();
    let mut volume = Volume::open(&mut image, &mut work).expect("valid");
    let name = path("Site/log");
    assert_eq!(volume.set_len(&name, 8192), Ok(()));
    assert_eq!(volume.overwrite(&name, 8180, b"up to here.\n"), Ok(()));
    assert_eq!(volume.overwrite(&name, 8181, b"up to here.\n"), Err(Refusal::Beyond));
    let mut out = [0; 12];
    assert_eq!(volume.read(&name, 8180, &mut out), Ok(12));
    assert_eq!(&out, b"up to here.\n");
    volume.close();
    assert_eq!(validate(&image, &mut work), Ok(()));
}

#[test]
fn a_length_that_the_version_does_not_have() {
    let (image, _) = site4();
    for length in [0, 1024, 1536, 8192, 11_776, 12_287, image.len() - 512, image.len() - 1] {
        // however short the work buffer is
        assert_eq!(validate(&image[..length], &mut []), Err(Refusal::BadLength), "{length}");
    }
    let (mut third, _) = site();
    third[MAJOR] = 4;
    assert_eq!(validate(&third, &mut []), Err(Refusal::BadLength));
}

#[test]
fn rules_of_one_version() {
    for (place, value, number) in [
        // another version, another shift, the first and the last byte behind the header's fields
        (MAJOR, 3, 10),
        (MAJOR, 5, 10),
        (MAJOR + 4, 9, 10),
        (512, 1, 10),
        (SECTOR - 1, 1, 10),
        // the directory has one sector
        (COUNT, 0, 13),
        (COUNT, 2, 13),
        // each upper half of a size counts
        (ROOT + 124, 1, 16),
        (LOG + 127, 1, 17),
        (JETS + 124, 1, 17),
    ] {
        let (mut image, mut work) = site4();
        image[place] = value;
        assert_eq!(validate(&image, &mut work).map_err(Refusal::number), Err(number), "{place}");
        let before = image.clone();
        assert_eq!(set_len(&mut image, &mut work, &path("Site/log"), 0).map_err(Refusal::number), Err(number));
        assert_eq!(image, before);
    }
    let (mut third, mut work) = site();
    third[COUNT] = 1;
    assert_eq!(validate(&third, &mut work), Err(Refusal::Header));
}
