//! Group 14: the fields of entries.

use super::edit::*;
use super::{Break, rule};
use crate::images::Sample;
use crate::images::layout::Node;
use crate::number::*;
use crate::random::Random;

pub const BREAKS: &[Break] = &[
    rule(14, "entry 0 not of type 5", |s, r| byte(s, 0, KIND, r.pick(&[0, 1, 2, 3, 4, 6, 255]))),
    rule(14, "another entry of type 5", another_root),
    rule(14, "unknown type", |s, r| {
        let e = any_but_root(s, r)?;
        byte(s, e, KIND, r.pick(&[3, 4, 6, 7, 0x81, 255]))
    }),
    rule(14, "type 0 but filled", |s, r| {
        let e = s.object(r)?.entry;
        byte(s, e, KIND, 0)
    }),
    rule(14, "blank: name, name bytes or colour not zero", |s, r| blank_byte(s, r, &[(0, 66), (64, 66), (67, 68)])),
    rule(14, "blank: CLSID to size not zero", |s, r| blank_byte(s, r, &[(80, 128), (96, 100), (116, 120), (120, 128)])),
    rule(14, "blank: link not NOSTREAM", blank_link),
    rule(14, "colour neither red nor black", colour),
    rule(14, "root: sibling", |s, r| {
        let v = entry_number(s, r);
        set(s, 0, r.pick(&[LEFT, RIGHT]), v)
    }),
    rule(14, "root: created", |s, r| field(s, r, the_root, 100, 108)),
    rule(14, "stream: child", |s, r| {
        let v = entry_number(s, r);
        let e = s.stream(r)?.entry;
        set(s, e, CHILD, v)
    }),
    rule(14, "stream: CLSID", |s, r| field(s, r, a_stream, 80, 96)),
    rule(14, "stream: created", |s, r| field(s, r, a_stream, 100, 108)),
    rule(14, "stream: modified", |s, r| field(s, r, a_stream, 108, 116)),
    rule(14, "storage: start", |s, r| field(s, r, a_storage, 116, 120)),
    rule(14, "storage: start end of chain", |s, r| {
        let e = a_storage(s, r)?;
        set(s, e, START, END)
    }),
    rule(14, "storage: size", |s, r| field(s, r, a_storage, 120, 128)),
    rule(14, "storage: upper half of the size", |s, r| field(s, r, a_storage, 124, 128)),
    rule(14, "blank: upper half of the size", |s, r| field(s, r, a_blank, 124, 128)),
    rule(14, "name bytes odd", odd),
    rule(14, "name bytes 2 with an empty name", empty_name),
    rule(14, "name bytes outside 4 to 64", name_bytes),
    rule(14, "name: last unit not zero", |s, r| unit(s, r, |node, _| node.name.len(), &[1, 0x41, 0x100, 0xFFFF])),
    rule(14, "name: zero in the middle", |s, r| unit(s, r, any_unit, &[0])),
    rule(14, "name: zero before the last unit", two_zeros),
    rule(14, "name: / \\ or :", |s, r| unit(s, r, any_unit, &[0x2F, 0x5C, 0x3A])),
    rule(14, "name: ! in a storage's", |s, r| {
        let node = s.storage(r)?;
        exclamation_mark(s, r, &node)
    }),
    rule(14, "name: ! in a stream's", |s, r| {
        let node = s.stream(r)?;
        exclamation_mark(s, r, &node)
    }),
];

/// Chooses an entry, if the image has one.
type Choice = fn(&Sample, &mut Random) -> Option<u32>;

fn the_root(_: &Sample, _: &mut Random) -> Option<u32> {
    Some(0)
}

fn a_blank(s: &Sample, r: &mut Random) -> Option<u32> {
    r.some(&s.layout.blanks).copied()
}

fn a_stream(s: &Sample, r: &mut Random) -> Option<u32> {
    s.stream(r).map(|node| node.entry)
}

fn a_storage(s: &Sample, r: &mut Random) -> Option<u32> {
    s.storage(r).map(|node| node.entry)
}

fn any_but_root(s: &Sample, r: &mut Random) -> Option<u32> {
    let count = s.layout.entry_count();
    (count > 1).then(|| r.between(1, count - 1))
}

/// Any value for a link but NOSTREAM.
fn entry_number(s: &Sample, r: &mut Random) -> u32 {
    let count = s.layout.entry_count();
    r.pick(&[0, 1, count - 1, count, END, 0x00FF_FFFF, 0xFFFF_FF00])
}

fn byte(s: &mut Sample, entry: u32, at: usize, value: u8) -> Option<()> {
    let place = s.layout.entry(entry) + at;
    s.image[place] = value;
    Some(())
}

fn set(s: &mut Sample, entry: u32, at: usize, value: u32) -> Option<()> {
    s.set_field(entry, at, value);
    Some(())
}

/// One byte of a field that must be zero is not.
fn field(s: &mut Sample, r: &mut Random, choice: Choice, from: usize, to: usize) -> Option<()> {
    let at = s.layout.entry(choice(s, r)?);
    s.spoil(r, at + from, at + to)
}

fn another_root(s: &mut Sample, r: &mut Random) -> Option<()> {
    let entry = any_but_root(s, r)?;
    byte(s, entry, KIND, 5)
}

fn blank_byte(s: &mut Sample, r: &mut Random, parts: &[(usize, usize)]) -> Option<()> {
    let (from, to) = r.pick(parts);
    field(s, r, a_blank, from, to)
}

fn blank_link(s: &mut Sample, r: &mut Random) -> Option<()> {
    let blank = a_blank(s, r)?;
    let value = entry_number(s, r);
    set(s, blank, r.pick(&[LEFT, RIGHT, CHILD]), value)
}

/// Of an object or the root.
fn colour(s: &mut Sample, r: &mut Random) -> Option<()> {
    let entry = s.object(r).map_or(0, |node| node.entry);
    let entry = if r.one_in(4) { 0 } else { entry };
    byte(s, entry, COLOUR, r.pick(&[2, 3, 128, 255]))
}

fn set_name_bytes(s: &mut Sample, node: &Node, value: u16) -> Option<()> {
    let at = s.layout.entry(node.entry) + NAME_BYTES;
    put_u16(&mut s.image, at, value);
    Some(())
}

fn odd(s: &mut Sample, r: &mut Random) -> Option<()> {
    let node = s.object(r)?;
    let right = 2 * (node.name.len() as u16 + 1);
    set_name_bytes(s, &node, r.pick(&[right + 1, right - 1]))
}

/// All but the count is as it should be.
fn empty_name(s: &mut Sample, r: &mut Random) -> Option<()> {
    let node = s.object(r)?;
    let at = s.layout.entry(node.entry);
    put_u16(&mut s.image, at, 0);
    set_name_bytes(s, &node, 2)
}

fn name_bytes(s: &mut Sample, r: &mut Random) -> Option<()> {
    let node = s.object(r)?;
    set_name_bytes(s, &node, r.pick(&[0, 1, 2, 3, 65, 66, 68, 128, 0x100, 0x104, 0x8004, 0xFFFE, 0xFFFF]))
}

fn any_unit(node: &Node, r: &mut Random) -> usize {
    r.index(node.name.len())
}

fn unit(s: &mut Sample, r: &mut Random, which: fn(&Node, &mut Random) -> usize, values: &[u16]) -> Option<()> {
    let node = s.object(r)?;
    let at = s.layout.entry(node.entry) + 2 * which(&node, r);
    put_u16(&mut s.image, at, r.pick(values));
    Some(())
}

/// At the name's beginning, at its end, or anywhere in it.
fn exclamation_mark(s: &mut Sample, r: &mut Random, node: &Node) -> Option<()> {
    let any = any_unit(node, r);
    let at = s.layout.entry(node.entry) + 2 * r.pick(&[0, node.name.len() - 1, any]);
    put_u16(&mut s.image, at, 0x21);
    Some(())
}

/// The name bytes count a second zero behind the closing one.
fn two_zeros(s: &mut Sample, r: &mut Random) -> Option<()> {
    let node = s.object(r)?;
    let units = node.name.len() + 1;
    (units < 32).then_some(())?;
    let at = s.layout.entry(node.entry);
    put_u16(&mut s.image, at + 2 * units, 0);
    set_name_bytes(s, &node, 2 * (units as u16 + 1))
}
