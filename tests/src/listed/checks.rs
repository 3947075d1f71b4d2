//! The reader on texts of the papers and on others, and what a listing tells of paths.

use super::reader::read;
use super::{Listed, path};
use crate::images::names;

const SITE: &str = "objects 3\nD 0 Site\nF 5000 Site/log\nF 70 Site/Jets\n";

fn of(text: &str) -> Vec<Vec<u16>> {
    text.split('/').map(names::of).collect()
}

#[test]
fn the_papers_listing_is_read() {
    let objects = read(SITE.as_bytes()).unwrap();
    let rows: Vec<(u8, u64, Vec<u16>)> =
        objects.iter().map(|object| (object.kind, object.size, path(&object.path))).collect();
    let due = [(1, 0, "Site"), (2, 5000, "Site/log"), (2, 70, "Site/Jets")];
    assert_eq!(rows, due.map(|(kind, size, path)| (kind, size, names::of(path))));
}

#[test]
fn coded_units_are_read() {
    let text = b"objects 1\nF 0 a b\\0001\\FFFF\\007F\\12AF~\n";
    assert_eq!(read(text).unwrap()[0].path, [[0x61, 0x20, 0x62, 1, 0xFFFF, 0x7F, 0x12AF, 0x7E]]);
}

#[test]
fn other_texts_are_refused() {
    let wrong = [
        "",
        "objects 0",
        "object 0\n",
        "objects 00\n",
        "objects 1\n",
        "objects 0\nF 0 a\n",
        "objects 1\nF 0 a",
        "objects 1\nD 1 a\n",
        "objects 1\nF 01 a\n",
        "objects 1\nF  a\n",
        "objects 1\nX 0 a\n",
        "objects 1\nF 0 \n",
        "objects 1\nF 0 a/\n",
        "objects 1\nF 0 a//b\n",
        "objects 1\nF 0 \\12a4\n",
        "objects 1\nF 0 \\123\n",
        "objects 1\nF 0 \\0041\n",
        "objects 1\nF 0 a\tb\n",
        "objects 1\n\nF 0 a\n",
    ];
    for text in wrong {
        assert!(read(text.as_bytes()).is_err(), "{text:?}");
    }
}

#[test]
fn paths_that_do_not_rise_are_refused() {
    let listed = |lines: &str| Listed::read(format!("objects 2\n{lines}").as_bytes()).is_ok();
    assert!(listed("D 0 b\nF 0 aa\n"));
    assert!(listed("D 0 b\nF 0 b/c\n"));
    assert!(!listed("F 0 aa\nD 0 b\n"));
    assert!(!listed("F 0 b/c\nD 0 b\n"));
    assert!(!listed("F 0 b\nF 0 b\n"));
    assert!(!listed("F 0 b\nF 0 B\n"));
}

#[test]
fn answers_by_the_listing() {
    let listed = Listed::read(SITE.as_bytes()).unwrap();
    assert_eq!(listed.answer(&[]), 0);
    for (path, answer) in [
        ("Site", 0),
        ("site", 0),
        ("SITE/LOG", 0),
        ("Site/jets", 0),
        ("Sit", 21),
        ("log", 21),
        ("Site/logs", 21),
        ("Site/gone/log", 21),
        ("Site/log/gone", 22),
        ("Site/log/log/log", 22),
        ("gone/log", 21),
    ] {
        assert_eq!(listed.answer(&of(path)), answer, "{path}");
    }
}
