//! Calls on pulse streams (W-208).

use super::paths;
use crate::calls::Call;
use crate::calls::pulse::Pulse;
use crate::images::pulses;
use crate::model::Model;
use crate::random::Random;

pub fn call(model: &Model, r: &mut Random) -> Call {
    let path = paths::to_pulses(model, r);
    match r.below(8) {
        0..2 => Call::PulseSummary { path },
        2..4 => Call::PulseRecord { number: number(model, &path, r), path },
        _ => Call::PulseAdd { path, pulse: pulse(r) },
    }
}

/// Any pulse, now and then of no ticks.
pub fn pulse(r: &mut Random) -> Pulse {
    let pulse = pulses::some(r);
    if r.one_in(8) { Pulse { ticks: 0, ..pulse } } else { pulse }
}

/// The number of a record, the first that there is not, or one that is the same where eight times it has 32 bits.
fn number(model: &Model, path: &[u16], r: &mut Random) -> u32 {
    let row = model.meant(path).ok().map(|row| &model.rows[row]);
    let count = row.and_then(|row| row.pulses()).map_or(0, |pulses| pulses.len() as u32);
    match r.below(8) {
        0..4 => r.below(count),
        4 => count.saturating_sub(1),
        5 => count,
        6 => r.below(count) + r.pick(&[1 << 16, 1 << 29, 1 << 30, 1 << 31]),
        _ => r.pick(&[0, u32::MAX, u32::MAX - 1, 1 << 31]),
    }
}
