//! Random changes whose answer is not known beforehand.

use crate::geometry::{V3, V4};
use crate::images::Sample;
use crate::number::*;
use crate::random::Random;

/// One to four changes; what was changed, in words.
pub fn mutate(s: &mut Sample, r: &mut Random) -> String {
    let count = r.pick(&[1, 1, 1, 2, 2, 3, 4]);
    let words: Vec<&str> = (0..count).map(|_| once(s, r)).collect();
    words.join(", ")
}

fn once(s: &mut Sample, r: &mut Random) -> &'static str {
    let (word, change) = r.pick(CHANGES);
    change(s, r);
    word
}

type Change = (&'static str, fn(&mut Sample, &mut Random));

const CHANGES: &[Change] = &[
    ("header field", |s, r| field(s, r, 0, &[40, 40, 44, 48, 52, 56, 60, 64, 68, 72, 76, 80, 504, 508])),
    ("header byte", |s, r| flip(s, r, 0, 512)),
    ("byte of the header's sector", |s, r| {
        let to = s.layout.geometry.sector;
        flip(s, r, 0, to)
    }),
    ("version", version),
    ("judged as the other version", other_version),
    ("cell", cell),
    ("cell", cell),
    ("cell", cell),
    ("mini cell", mini_cell),
    ("mini cell", mini_cell),
    ("DIFAT entry", difat_entry),
    ("entry field", entry_field),
    ("entry field", entry_field),
    ("entry byte", entry_byte),
    ("entry byte", entry_byte),
    ("entries exchanged", exchange_entries),
    ("entry copied", copy_entry),
    ("sectors exchanged", exchange_sectors),
    ("byte anywhere", |s, r| {
        let to = s.image.len();
        flip(s, r, 0, to)
    }),
    ("more sectors", length),
];

/// A value that is likely to lie on a line.
fn value(s: &Sample, r: &mut Random) -> u32 {
    let (n, k, e) = (s.layout.sectors, s.layout.minis, s.layout.entry_count());
    let special = [FREE, END, FATSECT, DIFSECT, 0xFFFF_FFFB, 0, 1, 2, 64, 4095, 4096, 4097, 0x7FFF_FFFF, 0x8000_0000];
    let near = [n, n - 1, n + 1, k, k.wrapping_sub(1), k + 1, e, e - 1, e + 1, s.layout.cell_count()];
    match r.below(8) {
        0..3 => r.pick(&special),
        3..5 => r.pick(&near),
        5 => r.below(n),
        6 => r.below(e.max(k)),
        _ => r.word(),
    }
}

/// The value that stands there, one more or one less, or another one altogether.
fn field(s: &mut Sample, r: &mut Random, base: usize, places: &[usize]) {
    let at = base + r.pick(places);
    let old = s.get(at);
    let other = value(s, r);
    let step = r.pick(&[1, 64, s.layout.geometry.sector as u32]);
    s.put(at, r.pick(&[other, other, other, old.wrapping_add(step), old.wrapping_sub(step)]));
}

fn flip(s: &mut Sample, r: &mut Random, from: usize, to: usize) {
    let at = from + r.index(to - from);
    let (bit, any) = (1 << r.below(8), r.byte());
    s.image[at] = r.pick(&[s.image[at] ^ bit, any, 0, 255]);
}

/// Major version and sector shift, seldom both of one version.
fn version(s: &mut Sample, r: &mut Random) {
    let major = r.pick(&[3, 4, 4, 5, 0x400, 0x403]);
    put_u16(&mut s.image, 26, major);
    if r.one_in(2) {
        put_u16(&mut s.image, 30, r.pick(&[9, 12]));
    }
}

/// The header is made one of the other version, as far as group 10 goes, with an image long enough. All that follows is in
/// the wrong places then.
fn other_version(s: &mut Sample, r: &mut Random) {
    let g = if s.layout.geometry == V3 { V4 } else { V3 };
    let length = s.image.len().next_multiple_of(g.sector).max(g.least_image);
    s.image.resize(length, 0);
    put_u16(&mut s.image, 26, g.major);
    put_u16(&mut s.image, 30, g.shift);
    s.image[512..g.sector].fill(0);
    let count = r.between(1, 3);
    s.put(40, if g.counts_directory { count } else { 0 });
    // So that the FAT has cells for all sectors.
    if r.one_in(2) {
        s.put(44, g.count(length).div_ceil(g.cells as u32));
    }
}

fn cell(s: &mut Sample, r: &mut Random) {
    let any = r.below(s.layout.cell_count());
    let below = r.below(s.layout.sectors);
    let at = s.layout.cell(r.pick(&[any, below, below, below]));
    field(s, r, at, &[0]);
}

fn mini_cell(s: &mut Sample, r: &mut Random) {
    if s.layout.mini_fat.is_empty() {
        return;
    }
    let any = r.below(s.layout.mini_cell_count());
    let below = r.below(s.layout.minis);
    let at = s.layout.mini_cell(r.pick(&[any, below, below, below]));
    field(s, r, at, &[0]);
}

fn difat_entry(s: &mut Sample, r: &mut Random) {
    let any = r.index(s.layout.difat_entry_count());
    let listed = r.index(s.layout.fat.len());
    let at = s.layout.difat_entry(r.pick(&[any, listed]));
    field(s, r, at, &[0]);
}

fn entry(s: &Sample, r: &mut Random) -> usize {
    s.layout.entry(r.below(s.layout.entry_count()))
}

fn entry_field(s: &mut Sample, r: &mut Random) {
    let at = entry(s, r);
    field(s, r, at, &[64, 68, 72, 76, 80, 96, 100, 104, 108, 112, 116, 120, 120, 124]);
}

fn entry_byte(s: &mut Sample, r: &mut Random) {
    let at = entry(s, r);
    let (from, to) = r.pick(&[(0, 64), (0, 4), (64, 66), (66, 67), (67, 68), (67, 68), (68, 80), (80, 128)]);
    flip(s, r, at + from, at + to);
}

fn exchange_entries(s: &mut Sample, r: &mut Random) {
    let (one, other) = (entry(s, r), entry(s, r));
    for i in 0..ENTRY {
        s.image.swap(one + i, other + i);
    }
}

fn copy_entry(s: &mut Sample, r: &mut Random) {
    let (from, to) = (entry(s, r), entry(s, r));
    s.image.copy_within(from..from + ENTRY, to);
}

fn exchange_sectors(s: &mut Sample, r: &mut Random) {
    let (one, other) = (r.below(s.layout.sectors), r.below(s.layout.sectors));
    let g = s.layout.geometry;
    for i in 0..g.sector {
        s.image.swap(g.place(one) + i, g.place(other) + i);
    }
}

/// Only adds, as other changes may follow that need the places they know.
fn length(s: &mut Sample, r: &mut Random) {
    let unit = if r.one_in(4) { 512 } else { s.layout.geometry.sector };
    let more = s.image.len() + unit * r.between(1, 3) as usize;
    s.image.resize(more, r.byte());
}
