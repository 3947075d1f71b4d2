//! Pulse streams (W-208): any preamble, then records of 8 bytes, then a trailer of 16. All of it is read by the stream's path, and an
//! addition is a change of length and an overwrite.

use super::find::find_stream;
use super::patch::{self, Patch};
use super::{overwrite, read, set_length};
use crate::number::*;
use crate::volume::Volume;

const RECORD: usize = 8;
const TRAILER: usize = 16;

/// A valve, and the ticks of 0.1 ms that it was open.
#[derive(Clone, Copy, PartialEq, Eq, Debug)]
pub struct Pulse {
    pub valve: u16,
    pub ticks: u32,
}

/// What a pulse stream holds behind its preamble.
pub struct Pulses {
    /// In the order of their numbers.
    pub records: Vec<Pulse>,
    pub total: u64,
}

impl Pulses {
    /// Of a stream with these bytes, from its end back; None where the papers answer 40.
    pub fn of(bytes: &[u8]) -> Option<Pulses> {
        let (front, trailer) = bytes.split_at(bytes.len().checked_sub(TRAILER)?);
        let (distance, count) = (u32_at(trailer, 0) as u64, u32_at(trailer, 4) as u64);
        if distance != TRAILER as u64 + RECORD as u64 * count || distance > bytes.len() as u64 {
            return None;
        }
        let records: Option<Vec<Pulse>> =
            front[bytes.len() - distance as usize..].chunks(RECORD).map(Pulse::of).collect();
        let pulses = Pulses { records: records?, total: u64_at(trailer, 8) };
        let sum: u128 = pulses.records.iter().map(|pulse| pulse.ticks as u128).sum();
        (sum == pulses.total as u128).then_some(pulses)
    }
}

impl Pulse {
    /// Of the bytes of a record; None if they are not right.
    fn of(record: &[u8]) -> Option<Pulse> {
        let (zero, ticks) = (u16_at(record, 2), u32_at(record, 4));
        (zero == 0 && ticks >= 1).then_some(Pulse { valve: u16_at(record, 0), ticks })
    }
}

/// The bytes and the pulses of the stream at a path.
fn pulses_at(volume: &Volume, path: &[u16]) -> Result<(Vec<u8>, Pulses), u32> {
    let mut bytes = vec![0; find_stream(volume, path)?.size as usize];
    read::read(volume, path, 0, &mut bytes)?;
    let pulses = Pulses::of(&bytes).ok_or(40u32)?;
    Ok((bytes, pulses))
}

/// Count and total.
pub fn summary(volume: &Volume, path: &[u16]) -> Result<[u64; 3], u32> {
    let (_, pulses) = pulses_at(volume, path)?;
    Ok([pulses.records.len() as u64, pulses.total, 0])
}

/// Valve and ticks.
pub fn record(volume: &Volume, path: &[u16], number: u32) -> Result<[u64; 3], u32> {
    let (_, pulses) = pulses_at(volume, path)?;
    let pulse = pulses.records.get(number as usize).ok_or(42u32)?;
    Ok([pulse.valve as u64, pulse.ticks as u64, 0])
}

/// The stream 8 bytes longer, and then the new record and the new trailer from where the old trailer was. 26 comes last.
pub fn add(volume: &Volume, path: &[u16], pulse: Pulse) -> Result<Vec<Patch>, u32> {
    let (bytes, pulses) = pulses_at(volume, path)?;
    if pulse.ticks == 0 {
        return Err(41);
    }
    let mut patches = set_length::set_length(volume, path, (bytes.len() + RECORD) as u64)?;
    let mut longer = volume.image.to_vec();
    patch::apply(&mut longer, &patches);
    let volume = Volume::open(&longer).expect("still a valid image");
    let tail = tail(pulse, pulses.records.len() + 1, pulses.total + pulse.ticks as u64);
    let place = bytes.len() - TRAILER;
    patches.extend(overwrite::overwrite(&volume, path, place as u64, &tail).expect("within the stream"));
    Ok(patches)
}

/// A record, and the trailer of so many records and ticks.
fn tail(pulse: Pulse, count: usize, total: u64) -> [u8; RECORD + TRAILER] {
    let mut tail = [0; RECORD + TRAILER];
    put_u16(&mut tail, 0, pulse.valve);
    put_u32(&mut tail, 4, pulse.ticks);
    put_u32(&mut tail, 8, (TRAILER + RECORD * count) as u32);
    put_u32(&mut tail, 12, count as u32);
    tail[16..].copy_from_slice(&total.to_le_bytes());
    tail
}
