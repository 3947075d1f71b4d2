//! Repairs of damaged images (W-213), and calls on what they leave.

use super::lists::List;
use super::{Case, damage, mutate, small};
use crate::breaks;
use crate::calls::Call;
use crate::compare::Tally;
use crate::draw;
use crate::images::{Sample, random_plan};
use crate::model::Model;
use crate::random::Random;
use crate::volume::{length_allowed, work_needed};
use std::rc::Rc;

/// The calls on a repaired image.
const CALLS: usize = 4;

/// Runs one repair and a few calls behind it, the first of which is another repair; `shown` prints each call and its answer.
pub fn run(seed: u64, number: u64, shown: bool, tally: &mut Tally) {
    let (name, mut r) = (format!("seed {seed} repaired {number}"), Random::of(seed.rotate_left(48), number));
    let case = case(&mut r);
    if shown {
        println!("{name}: {}", case.description());
    }
    let Some(after) = tally.run(&name, &case) else { return };
    let Some(model) = after.model.filter(|_| after.outcome.answer == 0) else { return };
    let mut list = List::begun(after.image, model, name, r.clone(), shown);
    let spare = vec![b'#'; case.image.len()];
    if list
        .make(Call::Repair { spare }, Some(0), work_needed(case.image.len()), |name, case| tally.run(name, case))
        .is_none()
    {
        return;
    }
    for _ in 0..CALLS {
        let work_len = list.work_len();
        if list.next(work_len, |name, case| tally.run(name, case)).is_none() {
            return;
        }
    }
}

/// A valid image that is damaged; in one of three something is broken besides, and in some that alone.
fn case(r: &mut Random) -> Case {
    let plan = if r.one_in(2) { random_plan::plan(r) } else { random_plan::scarce(r) };
    let mut sample = Sample::build(&plan, r);
    let broken = r.one_in(3);
    if !broken || !r.one_in(8) {
        damage::some(&mut sample, r);
    }
    // Damage may leave it valid, in other colours.
    let rows = Rc::new(Model::of(&sample));
    let kind = if broken { spoil(&mut sample, r) } else { "damaged".to_string() };
    let (length, needed) = (sample.image.len(), work_needed(sample.image.len()));
    let (work_len, spare) = (small::work_len(needed, r), draw::spare(length, r));
    let enough = work_len >= needed && spare.len() >= length;
    let expected = match length_allowed(&sample.image) {
        false => Some(1),
        true if !enough => Some(2),
        true => (!broken).then_some(0),
    };
    let call = Call::Repair { spare };
    Case { call, model: (!broken).then_some(rows), ..Case::new(&kind, sample.image, work_len, expected) }
}

/// One of the breaks that the image has a place for, or a few random changes.
fn spoil(s: &mut Sample, r: &mut Random) -> String {
    let all = breaks::all();
    for _ in 0..20 {
        let used = r.pick(&all);
        let mut changed = s.clone();
        if r.one_in(3) {
            break;
        }
        if used.apply(&mut changed, r).is_some() {
            *s = changed;
            return format!("damaged; {}", used.rule);
        }
    }
    format!("damaged; {}", mutate::mutate(s, r))
}
