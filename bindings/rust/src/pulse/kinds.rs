//! The numbers of a pulse stream, each a type of its own.

#![forbid(unsafe_code)]

/// The number of a valve.
#[derive(Clone, Copy, PartialEq, Eq, PartialOrd, Ord, Hash, Debug)]
pub struct Valve(pub u16);

/// The ticks of one pulse, of 0.1 ms each.
#[derive(Clone, Copy, PartialEq, Eq, PartialOrd, Ord, Hash, Debug)]
pub struct Ticks(pub u32);

/// The ticks of many pulses together.
#[derive(Clone, Copy, PartialEq, Eq, PartialOrd, Ord, Hash, Debug)]
pub struct TotalTicks(pub u64);

/// How many records, or the number of one, the first being 0.
#[derive(Clone, Copy, PartialEq, Eq, PartialOrd, Ord, Hash, Debug)]
pub struct Records(pub u32);

/// What a record holds: which valve was open, and for how long.
#[derive(Clone, Copy, PartialEq, Eq, Hash, Debug)]
pub struct Pulse {
    /// The valve.
    pub valve: Valve,
    /// How long it was open.
    pub ticks: Ticks,
}

/// What a summary gives.
#[derive(Clone, Copy, PartialEq, Eq, Hash, Debug)]
pub struct Totals {
    /// How many records there are.
    pub count: Records,
    /// The ticks of all of them.
    pub total: TotalTicks,
}
