//! What a call does to a valid image, and a fresh one and a repair to any, stated as properties of the image before and after, not as a
//! way to get there.

mod fresh;
mod lengths;
mod objects;
mod pulse;
mod repair;

use crate::calls::{Call, Outcome};
use crate::volume::entry::{STORAGE, STREAM};
use lengths::Seen;

/// The error says which property does not hold.
pub fn check(call: &Call, outcome: &Outcome, before: &[u8], after: &[u8]) -> Result<(), &'static str> {
    let changed = match call {
        _ if outcome.answer != 0 => Vec::new(),
        Call::Overwrite { path, offset, bytes } => {
            Seen::of(before, path).stream().pieces(*offset, *offset + bytes.len() as u64).collect()
        }
        Call::SetLength { path, length } => lengths::changed(before, after, path, *length)?,
        Call::CreateStream { path } => objects::created(before, after, path, STREAM)?,
        Call::CreateStorage { path } => objects::created(before, after, path, STORAGE)?,
        Call::Remove { path } => objects::removed(before, after, path)?,
        Call::PulseAdd { path, pulse } => pulse::added(before, after, path, *pulse)?,
        Call::Format(asked) => fresh::written(after, asked)?,
        Call::Repair { .. } => repair::repaired(before, after, outcome.values[0])?,
        _ => Vec::new(),
    };
    let mut put_back = after.to_vec();
    for part in changed {
        put_back[part.clone()].copy_from_slice(&before[part]);
    }
    held(put_back == before, "a byte changed that must stay")
}

fn held(property: bool, fault: &'static str) -> Result<(), &'static str> {
    if property { Ok(()) } else { Err(fault) }
}
