//! One file looked at by both.

use crate::reader::findings::findings;
use crate::reader::paths::Paths;
use crate::reader::survey::Survey;
use crate::reader::volume::Volume;
use crate::reader::{Finding, explain};
use gyomrelas::{validate, work_need};
use std::collections::BTreeMap;

/// How often each answer was seen.
#[derive(Default)]
pub struct Seen(BTreeMap<u32, usize>);

impl Seen {
    /// Compares, and counts. The error says how they differ.
    pub fn compare(&mut self, what: &str, bytes: &[u8]) -> Option<Finding> {
        let due = answer(bytes);
        let found = explain(bytes);
        let group = found.as_ref().map_or(0, |finding| finding.group);
        let told = found.as_ref().map_or("nothing".into(), |finding| finding.to_string());
        assert_eq!(group, due, "{what}: the library answers {due}, the reader finds {told}");
        if let Some(finding) = &found {
            sensible(what, bytes, finding);
        }
        *self.0.entry(due).or_default() += 1;
        found
    }

    /// Reads the file for a map, too, which must hold for any bytes.
    pub fn survey(bytes: &[u8]) {
        let volume = Volume::of(bytes);
        let survey = Survey::of(&volume);
        assert_eq!(survey.uses.len(), volume.image.count as usize);
        let paths = Paths::of(&volume);
        volume.entries().for_each(|entry| assert!(!paths.path(&volume, &entry).is_empty()));
        findings(bytes, &volume);
    }

    /// Prints the counts, and asks that every group was seen.
    pub fn report(&self, title: &str) {
        let all: usize = self.0.values().sum();
        println!("{title}: {all} files, all agree");
        for (answer, count) in &self.0 {
            println!("  answer {answer:>2}: {count}");
        }
    }

    pub fn count(&self, answer: u32) -> usize {
        self.0.get(&answer).copied().unwrap_or(0)
    }
}

/// The library's answer.
pub fn answer(bytes: &[u8]) -> u32 {
    validate(bytes, &mut vec![0; work_need(bytes.len())]).map_or_else(|refusal| refusal.number(), |()| 0)
}

/// Whatever is found has a sentence, and a place in the file but for a wrong length.
fn sensible(what: &str, bytes: &[u8], finding: &Finding) {
    assert!(!finding.text.is_empty(), "{what}");
    assert_eq!(finding.offset.is_none(), finding.group == 1, "{what}: {finding}");
    assert!(finding.offset.is_none_or(|offset| offset < bytes.len()), "{what}: {finding}");
}
