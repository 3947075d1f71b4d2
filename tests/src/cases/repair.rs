//! Repairs (W-213): each step by itself and with the others, each that cannot be taken with the number of what is left then, and the
//! buffers.

use super::objects::fill;
use super::{Case, damage};
use crate::breaks::edit::*;
use crate::calls::Call;
use crate::geometry::{Geometry, V4};
use crate::images::Sample;
use crate::images::layout::Node;
use crate::images::names;
use crate::images::plan::{Fill, Order, Plan};
use crate::model::Model;
use crate::number::*;
use crate::random::Random;
use crate::volume::work_needed;
use std::rc::Rc;

pub fn cases(g: Geometry) -> Vec<Case> {
    let mut cases = Vec::new();
    let base = Base::new(g);
    rest(&base, &mut cases);
    colours(&base, &mut cases);
    unowned(&base, &mut cases);
    together(&base, &mut cases);
    blocked(&base, &mut cases);
    shared_sectors(g, &mut cases);
    buffers(&base, &mut cases);
    cases
}

/// A valid image, to be damaged.
struct Base {
    sample: Sample,
}

impl Base {
    /// Storages, streams of every kind, free units that hold noise, red entries, and a directory whose last sector is blank.
    fn new(g: Geometry) -> Base {
        let some = Plan { fill: Fill::Noise, free: 9, spare_minis: 70, red_once_in: 1, ..Plan::of(g) };
        let mut plan = Plan { order: Order::Scattered, mini_order: Order::Scattered, spare_directory: 1, ..some };
        let site = plan.add(0, names::of("Site"), None);
        plan.add(site, names::of("log"), Some(5_000));
        plan.add(site, names::of("Jets"), Some(70));
        plan.add(site, names::of("x"), Some(4_096));
        plan.add(0, names::of("note"), Some(0));
        plan.add(0, names::of("gauge"), Some(4_095));
        fill(&mut plan, 3);
        Base { sample: Sample::build(&plan, &mut Random::of(g.major as u64, 13)) }
    }

    /// The repair of the image with this change, after which its rows are what they were but for colours.
    fn with(&self, expected: u32, change: impl FnOnce(&mut Sample)) -> Case {
        let mut sample = self.sample.clone();
        change(&mut sample);
        let (length, model) = (sample.image.len(), Some(Rc::new(Model::of(&sample))));
        let call = Call::Repair { spare: vec![b'#'; length] };
        Case { call, model, ..Case::new("repair", sample.image, work_needed(length), Some(expected)) }
    }

    /// The same where the directory names something else then.
    fn renamed(&self, expected: u32, change: impl FnOnce(&mut Sample)) -> Case {
        Case { model: None, ..self.with(expected, change) }
    }

    fn entry(&self, name: &str) -> u32 {
        let named = |node: &&Node| node.name == names::of(name);
        self.sample.layout.nodes.iter().find(named).expect("an object of this name").entry
    }
}

/// The first and the last cells from N on and from K on, with any value.
fn rest(base: &Base, cases: &mut Vec<Case>) {
    let layout = &base.sample.layout;
    let (n, cells) = (layout.sectors, layout.cell_count());
    let (k, mini_cells) = (layout.minis, layout.mini_cell_count());
    let values = [0, 1, END, FREE, FATSECT, DIFSECT, 0xFFFF_FFFB, 0x8000_0000];
    for value in values.into_iter().chain([n - 1, n, n + 1, cells]) {
        for cell in [n, n + 1, cells - 1] {
            cases.push(base.with(0, |s| s.set_cell(cell, value)));
        }
    }
    for value in values.into_iter().chain([k - 1, k, k + 1, mini_cells]) {
        for cell in [k, k + 1, mini_cells - 1] {
            cases.push(base.with(0, |s| s.set_mini_cell(cell, value)));
        }
    }
    cases.push(base.with(0, |s| (n..cells).for_each(|cell| s.set_cell(cell, cell))));
    cases.push(base.with(0, |s| (k..mini_cells).for_each(|cell| s.set_mini_cell(cell, 0))));
    // The last cells before them have owners, or none.
    for value in [n, cells, 0xFFFF_FFFB] {
        cases.push(base.with(12, |s| s.set_cell(n - 1, value)));
    }
    for value in [k, mini_cells, FATSECT] {
        cases.push(base.with(16, |s| s.set_mini_cell(k - 1, value)));
    }
}

/// Every value for each type; blank entries have no colour, and other types are no types.
fn colours(base: &Base, cases: &mut Vec<Case>) {
    let layout = &base.sample.layout;
    for entry in [0, base.entry("Site"), base.entry("log"), base.entry("note")] {
        let at = layout.entry(entry) + COLOUR;
        cases.extend((0..=255).map(|value| base.with(0, |s| s.image[at] = value)));
    }
    for &blank in &layout.blanks {
        let at = layout.entry(blank) + COLOUR;
        cases.extend([1, 2, 7, 255].map(|value| base.with(14, |s| s.image[at] = value)));
    }
    for kind in [3, 4, 6, 255] {
        let at = layout.entry(base.entry("log")) + KIND;
        cases.push(base.renamed(14, |s| {
            s.image[at] = kind;
            s.image[at + 1] = 7;
        }));
    }
    // A blank entry made an object by its type alone, and the other way round.
    let at = layout.entry(layout.blanks[0]) + KIND;
    cases.extend([1, 2, 5].map(|kind| base.renamed(14, |s| s.image[at] = kind)));
    let at = layout.entry(base.entry("log")) + KIND;
    cases.push(base.renamed(14, |s| s.image[at] = 0));
}

/// Cells of free units. What no cell may hold is refused before owners are looked at.
fn unowned(base: &Base, cases: &mut Vec<Case>) {
    let layout = &base.sample.layout;
    let (n, k, log) = (layout.sectors, layout.minis, base.sample.node_of(base.entry("log")).expect("a stream"));
    let (first, last) = (layout.free[0], *layout.free.last().expect("some are free"));
    for s in [first, last] {
        let fine = [END, s, 0, n - 1, first, last, layout.fat[0], layout.directory[0], log.units[0]];
        cases.extend(fine.map(|value| base.with(0, |sample| sample.set_cell(s, value))));
        cases.extend([n, 0xFFFF_FFFB].map(|value| base.with(12, |sample| sample.set_cell(s, value))));
        cases.extend([FATSECT, DIFSECT].map(|value| base.with(11, |sample| sample.set_cell(s, value))));
    }
    let (first, last) = (layout.free_minis[0], *layout.free_minis.last().expect("some are free"));
    for m in [first, last] {
        cases.extend([END, m, 0, k - 1, first, last].map(|value| base.with(0, |s| s.set_mini_cell(m, value))));
        cases.extend([k, FATSECT, 0xFFFF_FFFB].map(|value| base.with(16, |s| s.set_mini_cell(m, value))));
    }
    let (free, free_minis) = (layout.free.clone(), layout.free_minis.clone());
    cases.push(base.with(0, |s| {
        free.iter().for_each(|&sector| s.set_cell(sector, END));
        free_minis.iter().for_each(|&mini| s.set_mini_cell(mini, END));
    }));
    // A stream made empty leaves its chain to nobody.
    for name in ["log", "Jets"] {
        let entry = base.entry(name);
        cases.push(base.renamed(0, |s| {
            s.set_field(entry, START, END);
            s.set_field(entry, SIZE, 0);
        }));
    }
}

/// Damage for any of the steps, in all sixteen ways; and none at all.
fn together(base: &Base, cases: &mut Vec<Case>) {
    for (steps, number) in (0..16u32).flat_map(|steps| (0..4).map(move |number| (steps, number))) {
        let mut r = Random::of(steps as u64, number);
        cases.push(base.with(0, |s| damage_for(s, steps, &mut r)));
    }
}

/// For the steps whose bits are set.
fn damage_for(s: &mut Sample, steps: u32, r: &mut Random) {
    for step in (0..4).filter(|step| steps >> step & 1 == 1) {
        damage::of_step(s, step, r).expect("a place for it");
    }
}

type Change = fn(&Base, &mut Sample);

/// What stops the steps, with the number of the group that it breaks.
const STOPS: &[(u32, Change)] = &[
    (10, |_, s| s.image[0] = 0),
    (10, |_, s| s.put(56, 4_095)),
    (11, |_, s| s.put(44, 0)),
    (11, |_, s| s.put(68, 0)),
    (11, |_, s| s.set_cell(s.layout.fat[0], END)),
    (12, |_, s| s.set_cell(s.layout.directory[0], s.layout.sectors)),
    (13, |_, s| s.put(48, END)),
    (13, |_, s| s.set_cell(s.layout.directory[0], s.layout.directory[0])),
    (14, |base, s| s.set_field(base.entry("log"), CHILD, 0)),
    (14, |_, s| s.set_field(0, LEFT, 0)),
    (15, |_, s| s.set_field(0, CHILD, NOSTREAM)),
    (15, |base, s| rename(s, base.entry("gauge"), &names::of("a")).expect("it is renamed")),
    (16, |_, s| s.put(64, s.layout.mini_fat.len() as u32 + 1)),
    (16, |_, s| s.put(60, END)),
    (16, |_, s| s.set_field(0, SIZE, 64 * s.layout.minis - 1)),
    (16, |_, s| s.set_field(0, SIZE, 64 * s.layout.mini_cell_count() + 64)),
    (16, |_, s| s.set_field(0, START, END)),
    (17, |base, s| s.set_field(base.entry("log"), SIZE, 5_000 + 4_096)),
    (17, |base, s| s.set_field(base.entry("note"), START, 0)),
    (17, |base, s| s.set_field(base.entry("Jets"), START, s.layout.free_minis[0])),
];

/// Each by itself and with damage for any of the steps: the number is that of the first group that the outcome breaks.
fn blocked(base: &Base, cases: &mut Vec<Case>) {
    for &(group, change) in STOPS {
        for steps in 0..16 {
            let mut r = Random::of(steps as u64, 99);
            cases.push(base.renamed(group, |s| {
                damage_for(s, steps & !2, &mut r);
                change(base, s);
                if steps & 2 == 2 {
                    let at = s.layout.entry(0) + COLOUR;
                    s.image[at] = 9;
                }
            }));
        }
    }
    if base.sample.layout.geometry == V4 {
        cases.push(base.renamed(13, |s| s.put(40, s.layout.directory.len() as u32 + 1)));
    }
    two_owners(base, cases);
}

/// What nobody owns becomes free, and it is 18 all the same.
fn two_owners(base: &Base, cases: &mut Vec<Case>) {
    let (log, x) = (base.entry("log"), base.entry("x"));
    let first = base.sample.node_of(log).expect("a stream").units[0];
    for steps in 0..16 {
        let mut r = Random::of(steps as u64, 98);
        cases.push(base.renamed(18, |s| {
            damage_for(s, steps, &mut r);
            s.set_field(x, START, first);
            s.set_field(x, SIZE, 5_000);
        }));
    }
}

/// Tables that lie in sectors of something else: what the steps write there spoils it, in the copy alone.
fn shared_sectors(g: Geometry, cases: &mut Vec<Case>) {
    let bare = Base {
        sample: Sample::build(&Plan { fill: Fill::Noise, spare_directory: 1, ..Plan::of(g) }, &mut Random::of(2, 0)),
    };
    // All cells are from K on, so the third step fills the directory with free cells.
    cases.push(bare.renamed(14, |s| {
        s.put(60, s.layout.directory[0]);
        s.put(64, s.layout.directory.len() as u32);
    }));
    // All are below K, and allowed, so the fourth step does.
    let plan = Plan { fill: Fill::Noise, spare_directory: 1, spare_minis: g.cells as u32, ..Plan::of(g) };
    let full = Base { sample: Sample::build(&plan, &mut Random::of(2, 1)) };
    for steps in [0, 1, 2, 8, 11] {
        let mut r = Random::of(steps as u64, 97);
        cases.push(full.renamed(14, |s| {
            damage_for(s, steps & !8, &mut r);
            s.put(60, *s.layout.directory.last().expect("two sectors"));
        }));
    }
    // In the last sectors of a stream: its bytes are spoilt, and of the groups 18 alone is broken.
    let base = Base::new(g);
    let units = base.sample.node_of(base.entry("x")).expect("a stream").units.clone();
    for steps in [0, 4, 15] {
        let mut r = Random::of(steps as u64, 96);
        cases.push(base.renamed(18, |s| {
            damage_for(s, steps, &mut r);
            let fat = s.layout.mini_fat.clone();
            let last = &units[units.len() - fat.len()..];
            for (&to, &from) in last.iter().zip(&fat) {
                let from = g.place(from);
                s.image.copy_within(from..from + g.sector, g.place(to));
            }
            s.put(60, last[0]);
        }));
    }
}

/// 1 comes before 2, and 2 is for either buffer and comes before all groups.
fn buffers(base: &Base, cases: &mut Vec<Case>) {
    let (length, needed) = (base.sample.image.len(), work_needed(base.sample.image.len()));
    let lent = |image: Vec<u8>, work_len: usize, spare: usize, expected: u32| {
        let call = Call::Repair { spare: vec![b'#'; spare] };
        Case { call, ..Case::new("repair", image, work_len, Some(expected)) }
    };
    let damaged = |value: u8| {
        let mut image = base.sample.image.clone();
        image[base.sample.layout.entry(0) + COLOUR] = value;
        image
    };
    let mut broken = base.sample.image.clone();
    broken[0] = 0;
    for (work_len, spare, short) in [
        (needed, length, false),
        (needed + 5, length + 1, false),
        (needed, 2 * length, false),
        (needed - 1, length, true),
        (needed, length - 1, true),
        (needed, 0, true),
        (0, length, true),
        (0, 0, true),
    ] {
        for (image, answer) in [(damaged(0), 0), (damaged(1), 0), (damaged(7), 0), (broken.clone(), 10)] {
            cases.push(lent(image, work_len, spare, if short { 2 } else { answer }));
        }
        // In version 4 also lengths that version 3 has.
        let off = if base.sample.layout.geometry == V4 { 512 } else { 1 };
        for length in [length - off, length + off, length + 1] {
            let mut image = damaged(7);
            image.resize(length, 0);
            cases.push(lent(image, work_len, spare, 1));
        }
    }
    cases.push(lent(Vec::new(), 0, 0, 1));
}
