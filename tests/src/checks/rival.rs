//! The rival where it takes ways of its own: chains that share units, and directories whose streams it cannot note.

use crate::breaks::edit::*;
use crate::cases::large::{many_entries, most_objects};
use crate::cases::small::work_len;
use crate::geometry::VERSIONS;
use crate::images::Sample;
use crate::images::plan::*;
use crate::number::*;
use crate::random::Random;
use crate::rival;
use crate::volume::chains::Chains;
use crate::volume::{validate, work_needed};

/// How often each answer came.
#[derive(Default)]
struct Answers([u32; 19]);

impl Answers {
    /// Asks both, with a work buffer of some length.
    fn compare(&mut self, image: &[u8], r: &mut Random) {
        let work_len = work_len(work_needed(image.len()), r);
        let due = validate(image, work_len);
        self.0[due as usize] += 1;
        if let Err(fault) = rival::check(image, work_len, due) {
            panic!("{fault}; {} bytes, work {work_len}", image.len());
        }
    }

    fn came(&self, answer: usize, times: u32) -> bool {
        self.0[answer] >= times
    }
}

/// Gives the mini FAT, the mini stream or a stream a chain that begins anywhere, mostly of the length that it has there.
fn lead_elsewhere(s: &mut Sample, r: &mut Random) {
    let g = s.layout.geometry;
    let cells: Vec<u32> = (0..s.layout.sectors).map(|cell| s.get(s.layout.cell(cell))).collect();
    let start = r.below(s.layout.sectors + 1);
    let length = Chains::new(&cells).length(start) as u32 + r.pick(&[0, 0, 0, 0, 0, 1]);
    match r.below(4) {
        0 => {
            s.put(60, start);
            s.put(64, length);
        }
        1 => {
            let less = MINI_SECTOR as u32 * r.below(length.min(1) * g.minis as u32);
            s.set_field(0, START, start);
            s.set_field(0, SIZE, length * g.sector as u32 - less);
        }
        _ => {
            let Some(stream) = s.stream(r) else { return };
            s.set_field(stream.entry, START, start);
            s.set_field(stream.entry, SIZE, (length * g.sector as u32).max(CUTOFF as u32));
        }
    }
}

#[test]
fn rival_agrees_where_chains_are_shared() {
    let (mut r, mut answers) = (Random::of(21, 1), Answers::default());
    for _ in 0..3_000 {
        let sample = Sample::random(&mut r);
        for changes in [1, 1, 1, 1, 2, 2, 2, 3] {
            let mut changed = sample.clone();
            (0..changes).for_each(|_| lead_elsewhere(&mut changed, &mut r));
            answers.compare(&changed.image, &mut r);
        }
    }
    assert!((16..=18).all(|answer| answers.came(answer, 500)), "{:?}", answers.0);
}

/// A directory of nearly all sectors, whose streams all have the first one's mini sector or, in some, another start.
fn crowded(r: &mut Random) -> Sample {
    let g = r.pick(&VERSIONS);
    let sectors = if g.entries == 4 { r.between(300, 3_000) } else { r.between(60, 400) };
    let shape = r.pick(&[Shape::Random, Shape::Balanced, Shape::ZigZag]);
    // A sector less for the mini FAT, and one for the mini stream.
    let mut plan = many_entries(g, sectors, most_objects(g, sectors) - 2 * g.entries, shape);
    plan.objects[1].size = Some(1);
    plan.scattered_entries = r.one_in(2);
    plan.order = r.pick(&[Order::Rising, Order::Scattered]);
    let mut s = Sample::build(&plan, r);
    let wrong = r.pick(&[0, 0, 0, 1, 2]);
    for node in 1..s.layout.nodes.len() {
        let entry = s.layout.nodes[node].entry;
        s.set_field(entry, START, 0);
        s.set_field(entry, SIZE, 1);
    }
    for _ in 0..wrong {
        let entry = s.layout.nodes[1 + r.index(s.layout.nodes.len() - 1)].entry;
        s.set_field(entry, START, r.pick(&[1, END, FREE]));
    }
    s
}

#[test]
fn rival_agrees_where_notes_have_no_room() {
    let (mut r, mut answers) = (Random::of(21, 2), Answers::default());
    for _ in 0..150 {
        let sample = crowded(&mut r);
        answers.compare(&sample.image, &mut r);
    }
    assert!(answers.came(17, 20) && answers.came(18, 20), "{:?}", answers.0);
}
