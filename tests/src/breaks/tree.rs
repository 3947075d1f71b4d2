//! Group 15: the trees of siblings.

use super::edit::*;
use super::{Break, rule};
use crate::images::Sample;
use crate::images::layout::Node;
use crate::images::letters::{self, OUT_OF_PLAIN_ORDER};
use crate::images::names;
use crate::number::*;
use crate::random::Random;

pub const BREAKS: &[Break] = &[
    rule(15, "tree: a field names entry 0", |s, r| {
        let at = open_field(s, r)?;
        put(s, at, 0)
    }),
    rule(15, "tree: a field names no entry", names_outside),
    rule(15, "tree: a field names a blank entry", names_blank),
    rule(15, "tree: an entry named twice", names_twice),
    rule(15, "tree: a field names its own entry", names_itself),
    rule(15, "tree: an entry not reached", cut_off),
    rule(15, "tree: a storage cut off that holds itself", ring_apart),
    rule(15, "tree: storage in itself", holds_its_parent),
    rule(15, "tree: top red", red_top),
    rule(15, "tree: red below red", red_below_red),
    rule(15, "tree: left and right exchanged", exchanged_sides),
    rule(15, "tree: names of two siblings exchanged", exchanged_names),
    rule(15, "tree: names equal but for case", equal_names),
    rule(15, "tree: names equal but for the case of one letter", equal_letters),
    rule(15, "tree: in order with its parent but not above it", order_above),
    rule(15, "tree: ordered by letters before length", letters_first),
    rule(15, "tree: a-z taken as themselves", |s, r| unfolded_order(s, r, 0)),
    rule(15, "tree: 00E0-00FE taken as themselves", |s, r| unfolded_order(s, r, 1)),
    rule(15, "tree: 00FF taken as itself", |s, r| unfolded_order(s, r, 2)),
    rule(15, "tree: 03B1-03C9 taken as themselves", |s, r| unfolded_order(s, r, 3)),
    rule(15, "tree: 0430-044F taken as themselves", |s, r| unfolded_order(s, r, 4)),
    rule(15, "tree: 0450-045F taken as themselves", |s, r| unfolded_order(s, r, 5)),
];

/// The places of all links that group 15 judges.
fn fields(s: &Sample) -> Vec<usize> {
    let place = |node: &Node| {
        let at = s.layout.entry(node.entry);
        let holds = if node.size.is_none() { &[CHILD][..] } else { &[] };
        let sides = if node.entry == 0 { &[][..] } else { &[LEFT, RIGHT] };
        [holds, sides].concat().into_iter().map(move |field| at + field)
    };
    s.layout.nodes.iter().flat_map(place).collect()
}

/// A link that names nothing.
fn open_field(s: &Sample, r: &mut Random) -> Option<usize> {
    let open: Vec<usize> = fields(s).into_iter().filter(|&at| s.get(at) == NOSTREAM).collect();
    r.some(&open).copied()
}

/// A link that names an entry.
fn used_field(s: &Sample, r: &mut Random) -> Option<usize> {
    let used: Vec<usize> = fields(s).into_iter().filter(|&at| s.get(at) != NOSTREAM).collect();
    r.some(&used).copied()
}

fn names_outside(s: &mut Sample, r: &mut Random) -> Option<()> {
    let at = open_field(s, r)?;
    let count = s.layout.entry_count();
    put(s, at, r.pick(&[count, count + 1, END, 0xFFFF_FFFA, 0x8000_0000, 0x0200_0000, 0x0001_0000]))
}

fn names_blank(s: &mut Sample, r: &mut Random) -> Option<()> {
    let at = open_field(s, r)?;
    let &blank = r.some(&s.layout.blanks)?;
    put(s, at, blank)
}

fn names_twice(s: &mut Sample, r: &mut Random) -> Option<()> {
    let at = open_field(s, r)?;
    let again = s.object(r)?.entry;
    put(s, at, again)
}

fn names_itself(s: &mut Sample, r: &mut Random) -> Option<()> {
    let node = s.object(r)?;
    let field = if node.size.is_none() { r.pick(&[LEFT, RIGHT, CHILD]) } else { r.pick(&[LEFT, RIGHT]) };
    s.set_field(node.entry, field, node.entry);
    Some(())
}

fn cut_off(s: &mut Sample, r: &mut Random) -> Option<()> {
    let at = used_field(s, r)?;
    put(s, at, NOSTREAM)
}

/// The field that names this entry.
fn field_to(s: &Sample, entry: u32) -> Option<usize> {
    fields(s).into_iter().find(|&at| s.get(at) == entry)
}

fn ring_apart(s: &mut Sample, r: &mut Random) -> Option<()> {
    let node = s.storage(r)?;
    let at = field_to(s, node.entry)?;
    s.put(at, NOSTREAM);
    s.set_field(node.entry, CHILD, node.entry);
    Some(())
}

/// An empty storage's child field names the storage that it lies in.
fn holds_its_parent(s: &mut Sample, r: &mut Random) -> Option<()> {
    let inner = s.node(r, |node| node.size.is_none() && node.parent != 0 && node.links.child == NOSTREAM)?;
    let outer = s.layout.nodes[inner.parent].entry;
    s.set_field(inner.entry, CHILD, outer);
    Some(())
}

fn set_colour(s: &mut Sample, entry: u32, colour: u8) {
    let at = s.layout.entry(entry) + COLOUR;
    s.image[at] = colour;
}

fn red_top(s: &mut Sample, r: &mut Random) -> Option<()> {
    let top = s.node(r, |node| node.links.top)?;
    set_colour(s, top.entry, 0);
    Some(())
}

/// A node that is no top, and one of its sides.
fn red_below_red(s: &mut Sample, r: &mut Random) -> Option<()> {
    let node = s.node(r, |node| node.entry != 0 && !node.links.top && a_side(node).is_some())?;
    set_colour(s, node.entry, 0);
    set_colour(s, a_side(&node)?, 0);
    Some(())
}

fn a_side(node: &Node) -> Option<u32> {
    [node.links.left, node.links.right].into_iter().find(|&side| side != NOSTREAM)
}

fn exchanged_sides(s: &mut Sample, r: &mut Random) -> Option<()> {
    let node = s.node(r, |node| a_side(node).is_some())?;
    s.set_field(node.entry, LEFT, node.links.right);
    s.set_field(node.entry, RIGHT, node.links.left);
    Some(())
}

/// Two different objects in the same storage.
fn two_siblings(s: &Sample, r: &mut Random) -> Option<(Node, Node)> {
    let one = s.object(r)?;
    let others: Vec<&Node> =
        s.layout.nodes[1..].iter().filter(|n| n.parent == one.parent && n.entry != one.entry).collect();
    let &other = r.some(&others)?;
    Some((one, other.clone()))
}

fn exchanged_names(s: &mut Sample, r: &mut Random) -> Option<()> {
    let (one, other) = two_siblings(s, r)?;
    rename(s, one.entry, &other.name)?;
    rename(s, other.entry, &one.name)
}

fn equal_names(s: &mut Sample, r: &mut Random) -> Option<()> {
    let (one, other) = two_siblings(s, r)?;
    let all = r.one_in(2);
    let name = names::respelled(&other.name, || all || r.one_in(2));
    rename(s, one.entry, &name)
}

/// The only difference is that of a small letter and its capital, of any range.
fn equal_letters(s: &mut Sample, r: &mut Random) -> Option<()> {
    let (one, other) = two_siblings(s, r)?;
    let pairs: Vec<(u16, u16)> = if r.one_in(2) { letters::ends().collect() } else { letters::pairs().collect() };
    let (small, capital) = r.pick(&pairs);
    let mut name = other.name.clone();
    let at = r.index(name.len());
    name[at] = small;
    rename(s, one.entry, &name)?;
    name[at] = capital;
    rename(s, other.entry, &name)
}

/// A left side's right side gets a name above the node's own, or the mirror of that.
fn order_above(s: &mut Sample, r: &mut Random) -> Option<()> {
    let node = s.node(r, |node| a_side(node).is_some() && node.name.len() < 31 && node.name.len() > 1)?;
    let below = s.node_of(node.links.left).map(|left| left.links.right).filter(|&entry| entry != NOSTREAM);
    let above = s.node_of(node.links.right).map(|right| right.links.left).filter(|&entry| entry != NOSTREAM);
    match (below, above) {
        (Some(entry), _) => rename(s, entry, &[&node.name[..], &[0x41]].concat()),
        (_, Some(entry)) => rename(s, entry, &node.name[1..]),
        _ => None,
    }
}

/// A left side of two units whose first letter comes before the one letter of its parent.
fn letters_first(s: &mut Sample, r: &mut Random) -> Option<()> {
    let node = s.node(r, |node| node.links.left != NOSTREAM)?;
    rename(s, node.entry, &[0x42])?;
    rename(s, node.links.left, &[0x41, 0x41])
}

/// A node and its left side are in the order of the plain units, as `a` is behind `_`, and not in that of their capitals.
fn unfolded_order(s: &mut Sample, r: &mut Random, range: usize) -> Option<()> {
    let node = s.node(r, |node| node.links.left != NOSTREAM)?;
    let (first, last) = r.pick(OUT_OF_PLAIN_ORDER[range]);
    let (_, stem) = node.name.split_last()?;
    rename(s, node.entry, &[stem, &[first]].concat())?;
    rename(s, node.links.left, &[stem, &[last]].concat())
}
