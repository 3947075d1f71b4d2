//! Objects with random names, sizes, colours and places, in storages of any depth.

use super::Scale;
use super::good::all_scattered;
use crate::images::names::{self, Alphabet};
use crate::images::plan::*;
use crate::random::Random;
use std::collections::HashSet;

/// As many as this in 8 MiB; one in twenty is a storage.
pub fn mixed(s: Scale, count: usize) -> Plan {
    let mut r = Random::of(s.seed, 11);
    let mut plan = Plan { sectors: Some(s.sectors()), shape: Shape::Random, ..Plan::of(s.geometry) };
    let (mut storages, mut taken) = (vec![0], HashSet::new());
    while plan.objects.len() <= s.many(count) {
        let alphabet = if r.one_in(8) { Alphabet::Northern } else { Alphabet::Printable };
        let (parent, name) = (r.pick(&storages), names::random(&mut r, alphabet));
        if !taken.insert((parent, names::key(&name))) {
            continue;
        }
        if r.one_in(20) {
            storages.push(plan.add(parent, name, None));
        } else {
            plan.add(parent, name, Some(size(&mut r)));
        }
    }
    all_scattered(Plan { red_once_in: 2, rubbish_once_in: 2, ..plan })
}

/// One in a hundred streams is large.
fn size(r: &mut Random) -> u32 {
    if r.one_in(100) { r.between(4_096, 20_000) } else { r.pick(&[0, 30, 64, 100, 200, 500]) }
}
