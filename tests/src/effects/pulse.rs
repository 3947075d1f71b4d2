//! What an addition to a pulse stream does to an image (W-208).

use super::held;
use super::lengths::{Seen, crosses, longer_chain, other_chain, zero_from};
use crate::calls::pulse::Pulse;
use crate::number::*;
use std::ops::Range;

/// The places that may have changed: the stream's cells, start and size, and its bytes from the old trailer on; over the cutoff all of
/// them lie elsewhere.
pub fn added(before: &[u8], after: &[u8], path: &[u16], pulse: Pulse) -> Result<Vec<Range<usize>>, &'static str> {
    let (old, new) = (Seen::of(before, path), Seen::of(after, path));
    held(new.size == old.size + 8, "not 8 bytes longer")?;
    held(new.size_field() == new.size.to_le_bytes(), "the upper half of the size is not zero")?;
    let first = old.size - 16;
    bytes(&old.bytes(), &new.bytes(), first as usize, pulse)?;
    zero_from(&new, new.size)?;
    let from = if crosses(&old, &new) {
        other_chain(&old, &new)?;
        0
    } else {
        longer_chain(&old, &new)?;
        first
    };
    Ok(old.fields().chain(new.fields()).chain(new.stream().pieces(from, u64::MAX)).collect())
}

/// All bytes before the old trailer stay, the record stands in its place, and behind that the old one's numbers, each with its more.
fn bytes(was: &[u8], is: &[u8], trailer: usize, pulse: Pulse) -> Result<(), &'static str> {
    held(is[..trailer] == was[..trailer], "a byte before the old trailer changed")?;
    let record = (u16_at(is, trailer), u16_at(is, trailer + 2), u32_at(is, trailer + 4));
    held(record == (pulse.valve, 0, pulse.ticks), "not the record that was added")?;
    let (old, new) = (&was[trailer..], &is[trailer + 8..]);
    held(u32_at(new, 0) == u32_at(old, 0) + 8, "not 8 bytes more of distance")?;
    held(u32_at(new, 4) == u32_at(old, 4) + 1, "not one record more")?;
    held(u64_at(new, 8) == u64_at(old, 8) + pulse.ticks as u64, "not its ticks more")
}
