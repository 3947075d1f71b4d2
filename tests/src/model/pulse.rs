//! Pulse streams (W-208), by the rows alone: a row is one where its end is what a recorder of its pulses writes.

use super::{Model, Row};
use crate::calls::pulse::Pulse;
use crate::images::pulses::written;
use crate::number::*;

impl Model {
    pub fn summary(&self, path: &[u16]) -> Result<[u64; 3], u32> {
        let pulses = pulses(self.stream(path)?).ok_or(40u32)?;
        Ok([pulses.len() as u64, pulses.iter().map(|pulse| pulse.ticks as u64).sum(), 0])
    }

    pub fn record(&self, path: &[u16], number: u32) -> Result<[u64; 3], u32> {
        let pulses = pulses(self.stream(path)?).ok_or(40u32)?;
        let pulse = pulses.into_iter().nth(number as usize).ok_or(42u32)?;
        Ok([pulse.valve as u64, pulse.ticks as u64, 0])
    }

    /// The row gets 8 bytes more, and its end is written anew.
    pub fn add_pulse(&mut self, path: &[u16], pulse: Pulse) -> Result<[u64; 3], u32> {
        let row = self.stream(path)?;
        let mut pulses = pulses(row).ok_or(40u32)?;
        if pulse.ticks == 0 {
            return Err(41);
        }
        let length = row.len() + 8;
        pulses.push(pulse);
        self.set_length(path, length as u64)?;
        let end = written(&pulses);
        self.stream_mut(path)?[length - end.len()..].copy_from_slice(&end);
        Ok([0; 3])
    }
}

impl Row {
    /// The pulses of a pulse stream; None for all other rows.
    pub fn pulses(&self) -> Option<Vec<Pulse>> {
        pulses(self.bytes.as_ref()?)
    }
}

/// As many as the trailer says, if those and the trailer are what is written of them.
fn pulses(row: &[u8]) -> Option<Vec<Pulse>> {
    let end = row.len();
    let count = u32_at(row, end.checked_sub(16)? + 4) as usize;
    let first = end.checked_sub(16 + 8 * count)?;
    let at = |place: usize| Pulse { valve: u16_at(row, place), ticks: u32_at(row, place + 4) };
    let pulses: Vec<Pulse> = (0..count).map(|number| at(first + 8 * number)).collect();
    let some_ticks = pulses.iter().all(|pulse| pulse.ticks > 0);
    (some_ticks && row.ends_with(&written(&pulses))).then_some(pulses)
}
