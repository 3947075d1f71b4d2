//! Where a refused file breaks a rule, for `cfb check -v`.

use crate::reader::{Finding, explain};

/// The lines that `check -v` adds for a file that the library refused with this number. The library decides: a finding
/// of another group would say nothing about its answer.
pub fn lines(bytes: &[u8], answer: u32) -> Vec<String> {
    explain(bytes).filter(|finding| finding.group == answer).as_ref().map_or(Vec::new(), told)
}

fn told(finding: &Finding) -> Vec<String> {
    let place = finding.place();
    let place = (!place.is_empty()).then(|| format!("at {place}"));
    place.into_iter().chain([finding.text.clone()]).collect()
}
