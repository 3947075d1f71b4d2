//! Random calls, most on valid images whose rows are known, some on broken ones. Many in a row share one image.

use super::Case;
use super::small::Cases;
use crate::draw;
use crate::images::Sample;
use crate::images::plan::Fill;
use crate::images::random_plan;
use crate::model::Model;
use crate::random::Random;
use std::rc::Rc;

const SHARING: u64 = 32;
const VALID: u64 = 24;

pub struct Calls {
    seed: u64,
    changes: Cases,
    /// The valid image made last, with its number and rows.
    base: Option<(u64, Sample, Rc<Model>)>,
}

impl Calls {
    pub fn new(seed: u64) -> Calls {
        Calls { seed: !seed.rotate_left(32), changes: Cases::new(seed), base: None }
    }

    pub fn case(&mut self, number: u64) -> Case {
        let mut r = Random::of(self.seed, 2 * number);
        let (sample, model) = self.base(number / SHARING);
        let role = if number % SHARING < VALID { 0 } else { r.between(1, 15) as u64 };
        let call = draw::call(&model, &mut r);
        let case = self.changes.changed(sample, role, &mut r);
        // Only a refusal of the image says what the call answers, if it looks at the image.
        let expected = case.expected.filter(|&answer| answer != 0 && call.validates());
        Case { call, expected, model: (role == 0).then_some(model), ..case }
    }

    fn base(&mut self, number: u64) -> (Sample, Rc<Model>) {
        if self.base.as_ref().is_none_or(|(made, _, _)| *made != number) {
            let sample = sample(&mut Random::of(self.seed, 2 * number + 1));
            let model = Rc::new(Model::of(&sample));
            self.base = Some((number, sample, model));
        }
        let (_, sample, model) = self.base.as_ref().expect("just made");
        (sample.clone(), model.clone())
    }
}

/// Noise in the streams shows which bytes were read. In every other image some of them are pulse streams.
fn sample(r: &mut Random) -> Sample {
    let mut plan = random_plan::plan(r);
    if !r.one_in(8) {
        plan.fill = Fill::Noise;
    }
    let mut sample = Sample::build(&plan, r);
    if r.one_in(2) {
        sample.lay_pulses(r);
    }
    sample
}
