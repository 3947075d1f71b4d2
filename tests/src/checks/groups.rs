//! What a program of the gate reads and must print, which no implementation of this folder wrote.

use crate::groups::lines;
use std::fs;
use std::path::Path;

#[test]
fn calls_of_the_gate() {
    let folder = Path::new(env!("CARGO_MANIFEST_DIR")).join("../crates/calls_run");
    let read = |name| fs::read(folder.join(name)).expect("a file that can be read");
    assert!(lines(&read("stdin")).into_bytes() == read("stdout"));
}

/// A plan takes 36 bytes; with fewer there is no call, as with a kind that there is not.
#[test]
fn what_is_no_call() {
    let input = |kind: u32, plan: &[u8]| {
        let head = [1_536, 1].map(u32::to_le_bytes).concat();
        let call = [kind, 0, 0, plan.len() as u32, plan.len() as u32, 0, 0, 0].map(u32::to_le_bytes).concat();
        [&head[..], &[0; 1_536], &call, plan].concat()
    };
    let plan: Vec<u8> = [3, 2, 0, 1, 0, 0, 0, 0, 0].map(u32::to_le_bytes).concat();
    assert!(lines(&input(9, &plan)).starts_with("0 0 0 0 0 0 "));
    assert_eq!(lines(&input(9, &plan[..35])), "unknown\n");
    assert_eq!(lines(&input(15, &plan)), "unknown\n");
}
