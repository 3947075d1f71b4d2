//! Reads by an entry number (W-212): entries of every kind, positions and lengths on each side of every line, pieces that follow one
//! another, and images that are refused.

use super::Case;
use super::names::on;
use super::objects::{on_refused, site};
use crate::calls::Call;
use crate::geometry::Geometry;
use crate::images::Sample;
use crate::images::layout::Node;
use crate::model::Model;
use crate::number::NOSTREAM;
use std::rc::Rc;

/// One after the other, since there are many.
pub fn run(g: Geometry, next: &mut dyn FnMut(Case)) {
    for blanks in [0, 1, 5] {
        entries(&Base::new(g, blanks), next);
    }
    let base = Base::new(g, 2);
    positions(&base, next);
    pieces(&base, next);
    refused(&base, next);
}

/// A valid image and its rows: entries lie in no order, the directory's sectors in falling order, and in version 3 all sizes have
/// rubbish above.
struct Base {
    sample: Sample,
    rows: Rc<Model>,
}

impl Base {
    fn new(g: Geometry, blanks: usize) -> Base {
        let sample = site(g, blanks);
        Base { rows: Rc::new(Model::of(&sample)), sample }
    }

    fn case(&self, entry: u32, position: u64, len: usize, expected: u32) -> Case {
        let call = read_at(entry, position, len);
        Case { model: Some(self.rows.clone()), ..on(&self.sample, call, expected) }
    }

    /// The streams that hold something, and two that do not.
    fn streams(&self) -> impl Iterator<Item = (u32, u64)> {
        let nodes = self.sample.layout.nodes.iter();
        let named = nodes.filter(|node| !String::from_utf16_lossy(&node.name).starts_with("filling"));
        named.filter_map(|node| Some((node.entry, node.size? as u64)))
    }

    fn node(&self, entry: u32) -> Option<&Node> {
        self.sample.layout.nodes.iter().find(|node| node.entry == entry)
    }
}

fn read_at(entry: u32, position: u64, len: usize) -> Call {
    Call::ReadAt { entry, position, out: vec![b'#'; len] }
}

/// Every entry of the directory, those behind its end, and numbers that are the same in some of their bits. Where none is a stream it
/// is 33, also where the position is behind every end.
fn entries(base: &Base, next: &mut dyn FnMut(Case)) {
    let count = base.sample.layout.entry_count();
    let log = base.streams().next().expect("a stream").0;
    let far = [1 << 8, 1 << 16, 1 << 24, 1 << 25, 1 << 31].map(|more| more + log);
    let past = [count, count + 1, count + 31, 2 * count, 1 << 31, NOSTREAM - 5, NOSTREAM - 1, NOSTREAM];
    for entry in (0..count).chain(past).chain(far) {
        let size = base.node(entry).and_then(|node| node.size);
        for position in [0, 1, 5_001, u64::MAX] {
            let answer = match size {
                Some(size) if position <= size as u64 => 0,
                Some(_) => 24,
                None => 33,
            };
            next(base.case(entry, position, 9, answer));
            next(base.case(entry, position, 0, answer));
        }
    }
}

/// Around each end of a mini sector, of a sector and of the stream, by the size as read, and by all eight bytes of it.
fn positions(base: &Base, next: &mut dyn FnMut(Case)) {
    for (entry, size) in base.streams() {
        let upper = (base.node(entry).expect("its node").upper as u64) << 32;
        let lines = [0, 64, 128, 512, 1_024, 4_096, size].into_iter();
        let near = lines.flat_map(|line: u64| [line.saturating_sub(1), line, line + 1]);
        let far = [1 << 31, 1 << 32, (1 << 32) + size, upper + size, 1 << 63, u64::MAX - 511, u64::MAX];
        for position in near.chain(far) {
            for len in [0, 1, 7, 64, 65, 513, 4_097, 6_000] {
                next(base.case(entry, position, len, if position > size { 24 } else { 0 }));
            }
        }
    }
}

/// One after the other to the end, and one more, which has no bytes.
fn pieces(base: &Base, next: &mut dyn FnMut(Case)) {
    for (entry, size) in base.streams() {
        for len in [1, 7, 64, 512, 513, 4_096].into_iter().filter(|&len| size <= 100 * len) {
            for position in (0..size).step_by(len as usize).chain([size]) {
                next(base.case(entry, position, len as usize, 0));
            }
        }
    }
}

/// The image comes before the entry.
fn refused(base: &Base, next: &mut dyn FnMut(Case)) {
    let log = base.streams().next().expect("a stream").0;
    for entry in [0, log, base.sample.layout.blanks[0], NOSTREAM] {
        for position in [0, u64::MAX] {
            on_refused(&base.sample, read_at(entry, position, 9)).into_iter().for_each(&mut *next);
        }
    }
}
