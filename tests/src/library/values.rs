//! What a call writes beside its answer.

use crate::calls::Call;

/// What stands there before.
const NOISE: u64 = 0xA5A5_A5A5_A5A5_A5A5;

pub struct Values {
    pub entry: u32,
    pub kind: u32,
    pub size: u64,
    pub count: u64,
    pub records: u32,
    pub total: u64,
    pub valve: u16,
    pub ticks: u32,
}

impl Values {
    pub fn noise() -> Values {
        let (half, quarter) = (NOISE as u32, NOISE as u16);
        Values {
            entry: half,
            kind: half,
            size: NOISE,
            count: NOISE,
            records: half,
            total: NOISE,
            valve: quarter,
            ticks: half,
        }
    }

    /// Those that this call has, in the order of an outcome.
    pub fn of(&self, call: &Call) -> [u64; 3] {
        match call {
            Call::Find { .. } => [self.entry as u64, self.kind as u64, self.size],
            Call::Read { .. } | Call::List { .. } | Call::Repair { .. } | Call::ReadAt { .. } => [self.count, 0, 0],
            Call::PulseSummary { .. } => [self.records as u64, self.total, 0],
            Call::PulseRecord { .. } => [self.valve as u64, self.ticks as u64, 0],
            _ => [0; 3],
        }
    }
}
