//! Valid images.

use super::mixed::mixed;
use super::{Make, Scale, make};
use crate::cases::large::*;
use crate::images::plan::*;

pub const MAKES: &[Make] = &[
    make(0, "# small streams", &[24_000], |s| s.image(small_streams(s))),
    make(0, "# small streams, scattered", &[24_000], |s| s.image(scattered(small_streams(s)))),
    make(0, "# large streams", &[8], |s| s.image(large_streams(s))),
    make(0, "# large streams, scattered", &[8], |s| s.image(scattered(large_streams(s)))),
    make(0, "# entries, balanced", &[60_000], |s| s.image(entries(s, Shape::Balanced))),
    make(0, "# entries, balanced, sectors scattered", &[60_000], |s| s.image(scattered(entries(s, Shape::Balanced)))),
    make(0, "# entries, balanced, all scattered", &[60_000], |s| s.image(all_scattered(entries(s, Shape::Balanced)))),
    make(0, "# storages nested", &[60_000], |s| s.image(storages(s))),
    make(0, "mostly free", &[], |s| s.image(many_streams(s.geometry, s.sectors(), 10, &[100, 9_000]))),
    make(0, "one long stream", &[], |s| s.image(one_stream(s))),
    make(0, "one long stream, scattered", &[], |s| s.image(scattered(one_stream(s)))),
    make(0, "# objects of many kinds, all scattered", &[16_000], |s| s.image(mixed(s, 16_000))),
];

fn small_streams(s: Scale) -> Plan {
    many_streams(s.geometry, s.sectors(), s.many(24_000), &[1, 64, 65, 200, 0, 300])
}

fn large_streams(s: Scale) -> Plan {
    many_streams(s.geometry, s.sectors(), s.many(8), &[1_035_000])
}

pub fn entries(s: Scale, shape: Shape) -> Plan {
    many_entries(s.geometry, s.sectors(), s.many(60_000), shape)
}

fn storages(s: Scale) -> Plan {
    nested(s.geometry, s.sectors(), s.many(60_000))
}

/// Nearly all sectors are its.
pub fn one_stream(s: Scale) -> Plan {
    many_streams(s.geometry, s.sectors(), 1, &[s.many(16_000 * 512) as u32])
}

/// Sectors and mini sectors anywhere.
pub fn scattered(plan: Plan) -> Plan {
    Plan { order: Order::Scattered, mini_order: Order::Scattered, mixed_parts: true, ..plan }
}

/// Entries too.
pub fn all_scattered(plan: Plan) -> Plan {
    Plan { scattered_entries: true, ..scattered(plan) }
}
