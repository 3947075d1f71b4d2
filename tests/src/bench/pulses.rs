//! The longest image, with a pulse stream of 4,000,000 records in it (W-208).

use crate::calls::pulse::Pulse;
use crate::cases::large::MIB_64;
use crate::geometry::{Geometry, V3, V4};
use crate::images::plan::{Fill, Order, Plan};
use crate::images::pulses::{some, written};
use crate::images::{Sample, names};
use crate::random::Random;

pub const RECORDS: usize = 4_000_000;
/// So that records lie over the ends of sectors.
const PREAMBLE: usize = 5;

/// An image of 64 MiB, and the sum of its records' ticks.
pub struct Made {
    pub name: &'static str,
    pub image: Vec<u8>,
    pub total: u64,
}

pub fn makes() -> impl Iterator<Item = Made> {
    let kinds = [
        ("4,000,000 records", V3, Order::Rising),
        ("4,000,000 records, scattered", V3, Order::Scattered),
        ("version 4: 4,000,000 records", V4, Order::Rising),
        ("version 4: 4,000,000 records, scattered", V4, Order::Scattered),
    ];
    kinds.into_iter().map(|(name, g, order)| make(name, g, order))
}

fn make(name: &'static str, g: Geometry, order: Order) -> Made {
    let mut r = Random::of(7, 7);
    let pulses: Vec<Pulse> = (0..RECORDS).map(|_| some(&mut r)).collect();
    let end = written(&pulses);
    let mut plan = Plan { sectors: Some(g.count(MIB_64)), fill: Fill::Noise, order, ..Plan::of(g) };
    plan.add(0, path(), Some((PREAMBLE + end.len()) as u32));
    let mut sample = Sample::build(&plan, &mut r);
    let node = sample.layout.nodes[1].clone();
    sample.put_end(&node, &end);
    Made { name, image: sample.image, total: pulses.iter().map(|pulse| pulse.ticks as u64).sum() }
}

/// Where the stream is.
pub fn path() -> Vec<u16> {
    names::of("pulses")
}

/// The bytes of the stream.
pub const fn length() -> usize {
    PREAMBLE + 8 * RECORDS + 16
}
