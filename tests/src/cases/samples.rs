//! The sample files, and all files of the folder that CFB_FILES names: each is validated and listed.

use super::Case;
use crate::calls::Call;
use crate::files::{Expected, FOLDERS, answer, expected, in_folder, samples};
use crate::volume::work_needed;
use std::path::Path;

/// The out buffer of the lister.
const ROOM: usize = 65_536;

pub fn cases() -> Vec<Case> {
    let mut cases = Vec::new();
    for folder in FOLDERS {
        of_folder(&samples(folder), &expected(&samples(folder)), &mut cases);
    }
    if let Some(folder) = std::env::var_os("CFB_FILES") {
        of_folder(Path::new(&folder), &expected(&samples("programs")), &mut cases);
    }
    cases
}

/// Where no output is expected of a file, the library is only compared with the independent calls.
fn of_folder(folder: &Path, expected: &Expected, cases: &mut Vec<Case>) {
    for (name, image) in in_folder(folder) {
        let output = expected.get(&name);
        let kind = format!("file {name}");
        let validated = Case::new(&kind, image, 0, output.map(|output| answer(output)));
        let validated = Case { work_len: work_needed(validated.image.len()), ..validated };
        let text = output.map(|output| if answer(output) == 0 { output.clone() } else { String::new() });
        cases.push(Case { call: Call::List { out: vec![b'#'; ROOM] }, text, ..validated.clone() });
        cases.push(validated);
    }
}
