//! Group 10: one break for each judged part of the header, and the versions exchanged.

use super::edit::wrong;
use super::{Break, rule};
use crate::geometry::{V3, V4};
use crate::images::Sample;
use crate::number::*;
use crate::random::Random;

pub const BREAKS: &[Break] = &[
    rule(10, "header: signature", |s, r| s.spoil(r, 0, 8)),
    rule(10, "header: bytes 8-23 not zero", |s, r| s.spoil(r, 8, 24)),
    rule(10, "header: major version neither own nor 4", major_version),
    rule(10, "header: byte order", |s, r| half(s, r, 28, 0xFFFE, &[0, 0xFEFF, 0xFFFF, 0xFF])),
    rule(10, "header: sector shift", sector_shift),
    rule(10, "header: sector shift of the other version", other_shift),
    rule(10, "header: mini shift", |s, r| half(s, r, 32, 6, &[0, 5, 7, 9, 12, 0x106, 0x600])),
    rule(10, "header: bytes 34-39 not zero", |s, r| s.spoil(r, 34, 40)),
    rule(10, "header: directory sector count not zero", directory_count).only(V3),
    rule(10, "header: cutoff", cutoff),
    rule(10, "header: any judged byte", any_byte),
    rule(10, "header: major version 4 alone", |s, _| of_version_4(s, true)).only(V3),
    rule(1, "header: major version 4, no such length", |s, _| of_version_4(s, false)).only(V3),
    rule(10, "header: major version 3 alone", |s, _| {
        put_u16(&mut s.image, 26, 3);
        Some(())
    })
    .only(V4),
    rule(10, "header: version 3, directory sectors counted", version_3).only(V4),
    rule(10, "header: bytes 512-4095 not zero", |s, r| s.spoil(r, 512, 4096)).only(V4),
    rule(10, "header: byte 512 not zero", |s, r| s.spoil(r, 512, 513)).only(V4),
    rule(10, "header: byte 4095 not zero", |s, r| s.spoil(r, 4095, 4096)).only(V4),
];

/// A 16-bit field gets a wrong value.
fn half(s: &mut Sample, r: &mut Random, at: usize, right: u16, values: &[u32]) -> Option<()> {
    put_u16(&mut s.image, at, wrong(r, right as u32, values) as u16);
    Some(())
}

/// Any of them is judged as version 3.
fn major_version(s: &mut Sample, r: &mut Random) -> Option<()> {
    half(s, r, 26, s.layout.geometry.major, &[0, 2, 3, 5, 0x300, 0x103, 0x400, 0x104, 0x403, 0xFFFF])
}

fn sector_shift(s: &mut Sample, r: &mut Random) -> Option<()> {
    half(s, r, 30, s.layout.geometry.shift, &[0, 8, 9, 10, 11, 12, 13, 0x109, 0x900, 0x10C, 0xC00])
}

fn other_shift(s: &mut Sample, _: &mut Random) -> Option<()> {
    put_u16(&mut s.image, 30, if s.layout.geometry == V3 { V4.shift } else { V3.shift });
    Some(())
}

/// The true count is wrong here too.
fn directory_count(s: &mut Sample, r: &mut Random) -> Option<()> {
    let true_count = s.layout.directory.len() as u32;
    s.put(40, r.pick(&[true_count, 1, 0x100, 0x0100_0000, FREE]));
    Some(())
}

fn cutoff(s: &mut Sample, r: &mut Random) -> Option<()> {
    s.put(56, r.pick(&[0, 4095, 4097, 512, 0x0010_0000, 0x0100_1000, FREE]));
    Some(())
}

/// But the major version, which decides what else is judged.
fn any_byte(s: &mut Sample, r: &mut Random) -> Option<()> {
    let own = if s.layout.geometry == V3 { (40, 44) } else { (512, 4096) };
    let (from, to) = r.pick(&[(0, 24), (28, 40), (56, 60), own]);
    s.spoil(r, from, to)
}

/// Where the length is one of version 4, or where it is not.
fn of_version_4(s: &mut Sample, allowed: bool) -> Option<()> {
    (V4.length_allowed(s.image.len()) == allowed).then_some(())?;
    put_u16(&mut s.image, 26, 4);
    Some(())
}

/// The header is one of version 3 but for the count of directory sectors.
fn version_3(s: &mut Sample, _: &mut Random) -> Option<()> {
    put_u16(&mut s.image, 26, V3.major);
    put_u16(&mut s.image, 30, V3.shift);
    Some(())
}
