//! Lists of calls that begin with a fresh image (W-209), in a buffer that held anything.

use super::Case;
use super::lists::List;
use crate::calls::Call;
use crate::compare::Tally;
use crate::draw::fresh;
use crate::geometry::{Geometry, V3, VERSIONS};
use crate::random::Random;

/// The calls on the fresh image.
const CALLS: usize = 8;

/// Runs one list, up to the first call that fails; `shown` prints each call and its answer. After a refusal there is no image to call.
pub fn run(seed: u64, number: u64, shown: bool, tally: &mut Tally) {
    let (name, mut r) = (format!("seed {seed} formatted {number}"), Random::of(seed.rotate_left(40), number));
    let buffer = buffer(&mut r);
    let call = Call::Format(fresh::asked(buffer.len(), &mut r));
    let case = Case { call, ..Case::new("fresh", buffer, 0, None) };
    if shown {
        println!("{name}: {}", case.description());
    }
    let Some(after) = tally.run(&name, &case) else { return };
    let Some(model) = after.model else { return };
    let mut list = List::begun(after.image, model, name, r, shown);
    for _ in 0..CALLS {
        let work_len = list.work_len();
        if list.next(work_len, |name, case| tally.run(name, case)).is_none() {
            return;
        }
    }
}

/// Noise of a length that either version has, or hardly.
fn buffer(r: &mut Random) -> Vec<u8> {
    let g = r.pick(&VERSIONS);
    let sectors = sectors(g, r);
    let length = g.image_len(sectors);
    let length = match r.below(30) {
        0 => length - 1,
        1 => length + 1,
        2 => length + 512,
        _ => length,
    };
    let mut bytes = vec![0; length];
    r.fill(&mut bytes);
    bytes
}

/// Mostly few; in version 3 also about as many as some FAT sectors have cells.
fn sectors(g: Geometry, r: &mut Random) -> u32 {
    let few = r.between(1, 40);
    let cells = g.cells as u32 * r.between(1, 4);
    if g == V3 && r.one_in(4) { r.between(cells - 2, cells + 2) } else { few }
}
