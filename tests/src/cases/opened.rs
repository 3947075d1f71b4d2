//! Lists of calls on one volume, which is opened once before them and closed behind them.

use super::lists::{CALLS, List};
use crate::compare::Tally;
use crate::library::Opened;
use crate::random::Random;
use crate::volume::work_needed;

/// Runs one list, up to the first call that fails; `shown` prints each call and its answer.
pub fn run(seed: u64, number: u64, shown: bool, tally: &mut Tally) {
    let name = format!("seed {seed} opened {number}");
    let mut list = List::new(name.clone(), Random::of(seed.rotate_left(48), number), shown);
    let work_len = list.work_len().max(work_needed(list.image.len()));
    let opened = Opened::open(&list.image, work_len, 0);
    let Some(mut opened) = tally.pass(&name, opened).flatten() else { return };
    for _ in 0..CALLS {
        if list.next(work_len, |name, case| tally.run_opened(name, case, &mut opened)).is_none() {
            return;
        }
    }
    tally.pass(&name, opened.close());
}
