//! Small letters and capitals, which are the same in names and in paths.

use super::refusals::{JETS, LOG, SITE};
use super::{jets, sample, site};
use gyomrelas::{find, list, overwrite, path, read, set_len, validate, ReadOnlyVolume, Refusal, Volume};

/// The letters at the ends of the ranges, and beside what is left out of them.
const LETTERS: [(&str, &str); 15] = [
    ("a", "A"),
    ("z", "Z"),
    ("à", "À"),
    ("ö", "Ö"),
    ("ø", "Ø"),
    ("þ", "Þ"),
    ("ÿ", "Ÿ"),
    ("α", "Α"),
    ("ρ", "Ρ"),
    ("σ", "Σ"),
    ("ω", "Ω"),
    ("а", "А"),
    ("я", "Я"),
    ("ѐ", "Ѐ"),
    ("џ", "Џ"),
];

/// Units that are not the same: what is left out, units beside the ranges, letters of other ranges.
const OTHERS: [(&str, &str); 16] = [
    ("`", "@"),
    ("{", "["),
    ("ß", "¿"),
    ("÷", "×"),
    ("ÿ", "ß"),
    ("Ā", "à"),
    ("ΰ", "ΐ"),
    ("ς", "Σ"),
    ("ς", "σ"),
    ("ϊ", "Ϊ"),
    ("Я", "џ"),
    ("ѐ", "а"),
    ("Ѡ", "а"),
    ("ѡ", "Ѡ"),
    ("ά", "Ά"),
    ("œ", "Œ"),
];

/// Another name for an object.
fn rename(image: &mut [u8], entry: usize, name: &str) {
    let units = path(name);
    for (i, unit) in units.iter().chain(&[0]).enumerate() {
        image[entry + 2 * i..][..2].copy_from_slice(&unit.to_le_bytes());
    }
    image[entry + 64] = 2 * (units.len() as u8 + 1);
}

/// Each pair in both ways: what is in the image, and what is asked for.
fn both_ways(pairs: &[(&'static str, &'static str)]) -> Vec<(&'static str, &'static str)> {
    pairs.iter().flat_map(|&(one, other)| [(one, other), (other, one)]).collect()
}

#[test]
fn a_path_may_be_spelled_otherwise() {
    for (kept, asked) in both_ways(&LETTERS) {
        let (mut image, mut work) = site();
        rename(&mut image, SITE, &format!("Site {kept}"));
        rename(&mut image, JETS, &format!("je{kept}ts"));
        let name = path(&format!("sITE {asked}/JE{asked}TS"));
        assert_eq!(find(&image, &mut work, &name).map(|entry| entry.number), Ok(3), "{kept} {asked}");
        let mut out = [0; 70];
        assert_eq!(read(&image, &mut work, &name, 0, &mut out), Ok(70));
        assert_eq!(out[..], jets());
        assert_eq!(overwrite(&mut image, &mut work, &name, 69, b"#"), Ok(()));
        assert_eq!(set_len(&mut image, &mut work, &name, 128), Ok(()));
        assert_eq!(read(&image, &mut work, &name, 69, &mut out), Ok(59));
        assert_eq!(out[0], b'#');
        let mut volume = Volume::open(&mut image, &mut work).expect("valid");
        assert_eq!(volume.set_len(&name, 70), Ok(()));
        assert_eq!(volume.find(&name).map(|entry| entry.size), Ok(70));
    }
}

#[test]
fn units_that_are_no_such_letters_differ() {
    for (kept, asked) in both_ways(&OTHERS) {
        let (mut image, mut work) = site();
        rename(&mut image, JETS, &format!("je{kept}ts"));
        let name = path(&format!("Site/je{asked}ts"));
        let before = image.clone();
        assert_eq!(find(&image, &mut work, &name), Err(Refusal::NotFound), "{kept} {asked}");
        assert_eq!(overwrite(&mut image, &mut work, &name, 0, b"#"), Err(Refusal::NotFound));
        assert_eq!(set_len(&mut image, &mut work, &name, 0), Err(Refusal::NotFound));
        assert_eq!(image, before);
        let volume = ReadOnlyVolume::open(&image, &mut work).expect("valid");
        assert_eq!(volume.find(&name), Err(Refusal::NotFound));
    }
}

/// Two streams of one storage: their names are equal, or they are in order in one way and not in the other.
#[test]
fn siblings_have_different_names_in_order() {
    let answer = |log: &str, jets: &str| {
        let (mut image, mut work) = site();
        rename(&mut image, LOG, log);
        rename(&mut image, JETS, jets);
        validate(&image, &mut work)
    };
    for (one, other) in both_ways(&LETTERS) {
        assert_eq!(answer(one, other), Err(Refusal::Trees), "{one} {other}");
    }
    for (one, other) in OTHERS {
        let both = [answer(one, other), answer(other, one)];
        assert!(both.contains(&Ok(())) && both.contains(&Err(Refusal::Trees)), "{one} {other}");
    }
    // by their capitals; the plain units stand the other way round
    for (first, last) in [("a", "_"), ("þ", "÷"), ("Ā", "ÿ"), ("σ", "ς"), ("а", "Я"), ("џ", "я")] {
        assert_eq!(answer(first, last), Ok(()), "{first} {last}");
        assert_eq!(answer(last, first), Err(Refusal::Trees), "{last} {first}");
    }
}

#[test]
fn names_are_listed_as_they_are_spelled() {
    let (image, mut work) = sample("nested.cfb");
    let south = find(&image, &mut work, &path("Pumps/Süd")).expect("there");
    assert_eq!(find(&image, &mut work, &path("pUMPS/sÜD")), Ok(south));
    assert_eq!(find(&image, &mut work, &path("Pumps/Sud")), Err(Refusal::NotFound));
    let mut out = [0; 200];
    let count = list(&image, &mut work, &mut out).expect("short");
    assert!(out[..count].windows(9).any(|part| part == b"/S\\00FCd\n"));
}
