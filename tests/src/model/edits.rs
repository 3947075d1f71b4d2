//! Edits of the rows: accepted or refused by the rows alone.

use super::Model;
use crate::calls::{CROSSINGS, Call};
use crate::number::CUTOFF;

impl Model {
    /// Puts the bytes into the row from the offset on.
    pub fn overwrite(&mut self, path: &[u16], offset: u64, bytes: &[u8]) -> Result<[u64; 3], u32> {
        let row = self.stream_mut(path)?;
        let room = (row.len() as u64).checked_sub(offset).ok_or(24u32)?;
        if bytes.len() as u64 > room {
            return Err(24);
        }
        row[offset as usize..][..bytes.len()].copy_from_slice(bytes);
        Ok([0; 3])
    }

    /// Cuts the row at the new length, or adds zero bytes up to it. Its need may move from the one kind of units to the other.
    pub fn set_length(&mut self, path: &[u16], new: u64) -> Result<[u64; 3], u32> {
        let old = self.stream(path)?.len() as u64;
        let (before, after, free) = (self.need(old), self.need(new), self.free());
        if after.sectors > before.sectors + free.sectors || after.minis > before.minis + free.minis {
            return Err(26);
        }
        self.stream_mut(path)?.resize(new as usize, 0);
        Ok([0; 3])
    }

    /// Which crossing the call is if it takes a stream from below the cutoff over it, or back. 0 is on both sides.
    pub fn crossing(&self, call: &Call) -> Option<&'static str> {
        let [(up, _), (down, _), (added_up, _)] = CROSSINGS;
        let (Call::SetLength { path, .. } | Call::PulseAdd { path, .. }) = call else { return None };
        let old = self.stream(path).ok()?.len() as u64;
        let new = if let Call::SetLength { length, .. } = call { *length } else { old + 8 };
        let crosses = old > 0 && new > 0 && (old < CUTOFF) != (new < CUTOFF);
        crosses.then_some(match call {
            Call::PulseAdd { .. } => added_up,
            _ if old < CUTOFF => up,
            _ => down,
        })
    }

    pub fn stream_mut(&mut self, path: &[u16]) -> Result<&mut Vec<u8>, u32> {
        let row = self.meant(path)?;
        self.rows[row].bytes.as_mut().ok_or(23)
    }
}
