//! The program itself: maps are drawn of sound and of damaged files.

use crate::damage::Target;
use crate::images;
use crate::random::Random;
use std::fs;
use std::path::PathBuf;
use std::process::Command;

fn scratch(name: &str) -> PathBuf {
    PathBuf::from(env!("CARGO_TARGET_TMPDIR")).join(name)
}

/// What the program prints, and whether it went well.
fn run(words: &[&str]) -> (String, bool) {
    let output = Command::new(env!("CARGO_BIN_EXE_cfb")).args(words).output().unwrap();
    (String::from_utf8(output.stdout).unwrap(), output.status.success())
}

#[test]
fn the_map_of_a_sample() {
    let site = concat!(env!("CARGO_MANIFEST_DIR"), "/../samples/site.cfb");
    let (text, done) = run(&["map", site]);
    assert!(done && text.contains("\n       0  FaMDaaaaaaTaaa\n"), "{text}");
    assert!(text.contains("a      10  Site/log\n") && !text.contains('\x1b'), "{text}");
}

#[test]
fn maps_of_damaged_files() {
    let mut random = Random(3);
    let (file, svg) = (scratch("damaged.cfb"), scratch("damaged.svg"));
    let targets: Vec<Target> = [3, 4].map(|version| Target::new(images::filled(version))).into();
    for number in 0..60 {
        let mut variant = targets[number % 2].variant(&mut random);
        variant[..8].copy_from_slice(&targets[0].bytes[..8]);
        fs::write(&file, variant).unwrap();
        let (text, done) = run(&["map", file.to_str().unwrap()]);
        assert!(done && text.contains("header"), "{number}: {text}");
        let (_, drawn) = run(&["map", "--svg", svg.to_str().unwrap(), file.to_str().unwrap()]);
        assert!(drawn && fs::read_to_string(&svg).unwrap().ends_with("</svg>\n"), "{number}");
    }
}

#[test]
fn no_picture_of_what_is_no_compound_file() {
    let (file, svg) = (scratch("text.cfb"), scratch("text.svg"));
    fs::write(&file, "no compound file").unwrap();
    let _ = fs::remove_file(&svg);
    let (_, drawn) = run(&["map", "--svg", svg.to_str().unwrap(), file.to_str().unwrap()]);
    assert!(!drawn && !svg.exists());
}

#[test]
fn no_picture_over_the_file_itself() {
    let file = scratch("itself.cfb");
    fs::write(&file, images::filled(3)).unwrap();
    let name = file.to_str().unwrap();
    assert!(!run(&["map", "--svg", name, name]).1);
    assert_eq!(fs::read(&file).unwrap(), images::filled(3));
}

#[test]
fn a_check_says_where() {
    let file = scratch("checked.cfb");
    let mut bytes = images::filled(3);
    bytes[56] = 1;
    fs::write(&file, bytes).unwrap();
    let (text, done) = run(&["check", "-v", file.to_str().unwrap()]);
    assert!(!done && text.contains("at byte 56 (38 hex), in the header") && text.contains("4096"), "{text}");
}
