//! Pulse streams: streams that keep which valve was open for how long.
//!
//! A pulse stream is any preamble, then records of 8 bytes, then a trailer of 16. A record is a valve (2 bytes), zero (2) and
//! the ticks of 0.1 ms that it was open, at least one (4). The trailer is the distance from the stream's end back to the first
//! record (4), the count of records (4) and the total of their ticks (8). All numbers are little-endian. A stream that ends with
//! [`NO_RECORDS`] is one without records.
//!
//! Ticks and counts of records are types of their own, so that neither is taken for the other.
//!
//! ```
//! use gyomrelas::pulse::{self, Pulse, PulseRefusal, Records, Ticks, Totals, TotalTicks, Valve};
//! use gyomrelas::{overwrite, path, work_need};
//!
//! let mut image = std::fs::read("../../samples/site.cfb").expect("the sample is there");
//! let mut work = vec![0; work_need(image.len())];
//! let log = path("Site/log");
//! // the log's 5,000 bytes end with text, and then with the trailer of no records
//! assert_eq!(pulse::summary(&image, &mut work, &log), Err(PulseRefusal::NotPulses));
//! overwrite(&mut image, &mut work, &log, 5000 - 16, &pulse::NO_RECORDS)?;
//!
//! pulse::add(&mut image, &mut work, &log, Valve(12), Ticks(25))?;
//! pulse::add(&mut image, &mut work, &log, Valve(3), Ticks(u32::MAX))?;
//! assert_eq!(pulse::add(&mut image, &mut work, &log, Valve(3), Ticks(0)), Err(PulseRefusal::NoTicks));
//! let totals = pulse::summary(&image, &mut work, &log)?;
//! assert_eq!(totals, Totals { count: Records(2), total: TotalTicks(25 + u64::from(u32::MAX)) });
//! let first = pulse::record(&image, &mut work, &log, Records(0))?;
//! assert_eq!(first, Pulse { valve: Valve(12), ticks: Ticks(25) });
//! # Ok::<(), PulseRefusal>(())
//! ```

#![forbid(unsafe_code)]

mod kinds;
mod refusal;

pub use kinds::{Pulse, Records, Ticks, TotalTicks, Totals, Valve};
pub use refusal::PulseRefusal;

use crate::pulse_calls;
use refusal::answered;

/// The trailer of no records. Put at the end of a stream, it makes it a pulse stream, with what stands before it as preamble.
pub const NO_RECORDS: [u8; 16] = [16, 0, 0, 0, 0, 0, 0, 0, 0, 0, 0, 0, 0, 0, 0, 0];

/// How many records a pulse stream has, and the total of their ticks. The time is linear in the image's length.
///
/// Refusals: those of [`validate`](crate::validate); 20 to 23; and 40.
pub fn summary(image: &[u8], work: &mut [u32], path: &[u16]) -> Result<Totals, PulseRefusal> {
    let (answer, count, total) = pulse_calls::summary(image, work, path);
    answered(answer)?;
    Ok(Totals { count: Records(count), total: TotalTicks(total) })
}

/// The record of a number, from 0. All of the stream is looked at first, as by [`summary`].
///
/// Refusals: those of [`validate`](crate::validate); 20 to 23; 40; and then 42, where there is none of that number.
pub fn record(image: &[u8], work: &mut [u32], path: &[u16], number: Records) -> Result<Pulse, PulseRefusal> {
    let (answer, valve, ticks) = pulse_calls::record(image, work, path, number.0);
    answered(answer)?;
    Ok(Pulse { valve: Valve(valve), ticks: Ticks(ticks) })
}

/// Adds a record behind the others. The stream is 8 bytes longer then, as after [`set_len`](crate::set_len), with the record
/// where the trailer was and a new trailer behind it; all else of the stream is as it was. It is done whole or not at all.
///
/// However many are added, and whatever is done to other streams in between, the total is that found at the start and the ticks
/// of every addition that was not refused, if nothing else edits the stream.
///
/// Refusals: those of [`validate`](crate::validate); 20 to 23; 40; then 41, where there are no ticks; and last 26, where the
/// image has no room for 8 bytes more.
pub fn add(image: &mut [u8], work: &mut [u32], path: &[u16], valve: Valve, ticks: Ticks) -> Result<(), PulseRefusal> {
    answered(pulse_calls::add(image, work, path, valve.0, ticks.0))
}
