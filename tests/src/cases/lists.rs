//! Lists of calls on one image, which goes from call to call. The rows are kept from the first image and the list alone.

use super::{Case, small};
use crate::calls::{Call, Outcome};
use crate::compare::{After, Tally};
use crate::draw;
use crate::images::Sample;
use crate::images::random_plan;
#[cfg(feature = "edits")]
use crate::library::Opened;
use crate::model::Model;
use crate::random::Random;
use crate::volume::work_needed;
use std::rc::Rc;

/// The calls of a list.
pub const CALLS: usize = 20;

/// Runs one list, up to the first call that fails; `shown` prints each call and its answer.
pub fn run(seed: u64, number: u64, shown: bool, tally: &mut Tally) {
    let mut list = List::new(format!("seed {seed} lists {number}"), Random::of(seed.rotate_left(16), number), shown);
    for _ in 0..CALLS {
        let work_len = list.work_len();
        if list.next(work_len, |name, case| tally.run(name, case)).is_none() {
            return;
        }
    }
}

/// A list before its next call.
pub struct List {
    pub name: String,
    r: Random,
    shown: bool,
    made: usize,
    pub image: Vec<u8>,
    pub model: Rc<Model>,
}

impl List {
    pub fn new(name: String, mut r: Random, shown: bool) -> List {
        let plan = if r.one_in(5) { random_plan::plan(&mut r) } else { random_plan::scarce(&mut r) };
        let mut sample = Sample::build(&plan, &mut r);
        if r.one_in(2) {
            sample.lay_pulses(&mut r);
        }
        List::on(sample, name, r, shown)
    }

    pub fn on(sample: Sample, name: String, r: Random, shown: bool) -> List {
        let model = Rc::new(Model::of(&sample));
        List::begun(sample.image, model, name, r, shown)
    }

    /// On an image that has these rows.
    pub fn begun(image: Vec<u8>, model: Rc<Model>, name: String, r: Random, shown: bool) -> List {
        List { name, r, shown, made: 0, image, model }
    }

    /// A length for the work buffer.
    pub fn work_len(&mut self) -> usize {
        small::work_len(work_needed(self.image.len()), &mut self.r)
    }

    /// Draws a call and has it run with a work buffer of this length; None if it fails.
    pub fn next(&mut self, work_len: usize, run: impl FnOnce(&str, &Case) -> Option<After>) -> Option<Outcome> {
        let call = draw::call(&self.model, &mut self.r);
        self.make(call, None, work_len, run)
    }

    /// Has this call run; its answer may be known.
    pub fn make(
        &mut self,
        call: Call,
        expected: Option<u32>,
        work_len: usize,
        run: impl FnOnce(&str, &Case) -> Option<After>,
    ) -> Option<Outcome> {
        let name = format!("{} call {}", self.name, self.made);
        let model = Some(self.model.clone());
        let case = Case { call, model, ..Case::new("list", std::mem::take(&mut self.image), work_len, expected) };
        if self.shown {
            println!("{name}: {}", case.description());
        }
        let after = run(&name, &case)?;
        if self.shown {
            println!("  answered {}", after.outcome.answer);
        }
        self.made += 1;
        self.image = after.image;
        self.model = after.model.expect("a case with rows leaves rows");
        Some(after.outcome)
    }
}

/// A list on one volume. Where the library's opened calls are linked, it is opened once for all of them.
pub struct OneVolume<'t> {
    list: List,
    work_len: usize,
    tally: &'t mut Tally,
    #[cfg(feature = "edits")]
    opened: Opened,
}

impl OneVolume<'_> {
    /// None if it cannot be opened.
    pub fn open(list: List, work_len: usize, tally: &mut Tally) -> Option<OneVolume<'_>> {
        #[cfg(feature = "edits")]
        let opened = tally.pass(&list.name, Opened::open(&list.image, work_len, 0)).flatten()?;
        #[cfg(feature = "edits")]
        return Some(OneVolume { list, work_len, tally, opened });
        #[cfg(not(feature = "edits"))]
        Some(OneVolume { list, work_len, tally })
    }

    pub fn rows(&self) -> &Model {
        &self.list.model
    }

    /// Has this call run; its answer may be known. None if it fails.
    pub fn make(&mut self, call: Call, expected: Option<u32>) -> Option<Outcome> {
        let OneVolume { list, work_len, tally, .. } = self;
        #[cfg(feature = "edits")]
        let run = |name: &str, case: &Case| tally.run_opened(name, case, &mut self.opened);
        #[cfg(not(feature = "edits"))]
        let run = |name: &str, case: &Case| tally.run(name, case);
        list.make(call, expected, *work_len, run)
    }

    /// Counts a check as passed or failed.
    pub fn pass(&mut self, checked: Result<(), String>) -> Option<()> {
        self.tally.pass(&self.list.name, checked)
    }

    pub fn close(self) {
        #[cfg(feature = "edits")]
        let OneVolume { list, tally, mut opened, .. } = self;
        #[cfg(feature = "edits")]
        tally.pass(&list.name, opened.close());
    }
}
