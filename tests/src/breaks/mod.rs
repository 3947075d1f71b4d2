//! Changes of a valid image whose answer is known from the papers.

mod cells;
mod directory;
pub mod edit;
mod fields;
mod harmless;
mod header;
mod mini;
mod owners;
mod streams;
mod tables;
mod tree;
pub mod uses;

use crate::geometry::Geometry;
use crate::images::Sample;
use crate::random::Random;

/// A change that breaks one rule and leaves the groups before it whole.
pub struct Break {
    pub rule: &'static str,
    /// The answer that the papers give.
    pub expected: u32,
    /// The version that the rule is of; None for both.
    only: Option<Geometry>,
    change: fn(&mut Sample, &mut Random) -> Option<()>,
}

const fn rule(expected: u32, rule: &'static str, change: fn(&mut Sample, &mut Random) -> Option<()>) -> Break {
    Break { rule, expected, only: None, change }
}

impl Break {
    const fn only(self, version: Geometry) -> Break {
        Break { only: Some(version), ..self }
    }

    pub fn is_of(&self, version: Geometry) -> bool {
        self.only.is_none_or(|only| only == version)
    }

    /// None if this image has no place for it.
    pub fn apply(&self, s: &mut Sample, r: &mut Random) -> Option<()> {
        self.is_of(s.layout.geometry).then_some(())?;
        (self.change)(s, r)
    }
}

/// Those that break group 11.
pub fn of_tables() -> &'static [Break] {
    tables::BREAKS
}

/// Every change, those that break nothing last.
pub fn all() -> Vec<&'static Break> {
    let groups = [
        header::BREAKS,
        tables::BREAKS,
        cells::BREAKS,
        directory::BREAKS,
        fields::BREAKS,
        tree::BREAKS,
        mini::BREAKS,
        streams::BREAKS,
        owners::BREAKS,
        harmless::CHANGES,
    ];
    groups.into_iter().flatten().collect()
}
