//! How often each change was used in images of each version.

use super::{Break, all};
use crate::geometry::{Geometry, VERSIONS};
use std::collections::BTreeMap;

#[derive(Default)]
pub struct Uses(BTreeMap<(&'static str, u16), u64>);

impl Uses {
    pub fn count(&mut self, change: &Break, version: Geometry) {
        *self.0.entry((change.rule, version.major)).or_default() += 1;
    }

    /// Of each change in each version that it is for.
    fn each(&self) -> impl Iterator<Item = (&'static str, u16, u64)> {
        let due = VERSIONS.into_iter().flat_map(|g| all().into_iter().filter(move |c| c.is_of(g)).map(move |c| (c, g)));
        due.map(|(change, g)| (change.rule, g.major, self.0.get(&(change.rule, g.major)).copied().unwrap_or(0)))
    }

    /// Changes that were never used, with the version.
    pub fn unused(&self) -> Vec<String> {
        let never = self.each().filter(|(_, _, times)| *times == 0);
        never.map(|(rule, major, _)| format!("version {major}: {rule}")).collect()
    }

    /// For each version how many changes there are, and which was used least often.
    pub fn report(&self) {
        for g in VERSIONS {
            let mut changes: Vec<_> = self.each().filter(|(_, major, _)| *major == g.major).collect();
            changes.sort_by_key(|&(_, _, times)| times);
            let (rarest, _, times) = changes[0];
            println!("version {}  {} kinds of change, the rarest {times} times: {rarest}", g.major, changes.len());
        }
    }
}
