//! Calls as the gate's program `calls_run` reads them, made by the independent calls. `../tools/groups.py` says how they are laid out,
//! and what is printed of each.

use crate::calls::format::Fresh;
use crate::calls::pulse::Pulse;
use crate::calls::{Call, Outcome, perform};
use crate::number::{u32_at, u64_at};
use crate::volume::work_needed;

/// What the program must print.
pub fn lines(input: &[u8]) -> String {
    let (mut text, mut rest) = (String::new(), Rest(input));
    while !rest.0.is_empty() {
        let (length, calls) = (rest.number(), rest.number());
        let mut image = rest.bytes(length).to_vec();
        for _ in 0..calls {
            match rest.call() {
                Some((call, buffer, work_len)) => text += &line(&call, &buffer, &mut image, work_len),
                None => return text + "unknown\n",
            }
        }
    }
    text
}

/// What is still to be read.
struct Rest<'a>(&'a [u8]);

impl<'a> Rest<'a> {
    fn bytes(&mut self, count: usize) -> &'a [u8] {
        let (bytes, rest) = self.0.split_at(count);
        self.0 = rest;
        bytes
    }

    fn number(&mut self) -> usize {
        u32_at(self.bytes(4), 0) as usize
    }

    /// A call, with its buffer and the length of its work buffer; None for what is no call.
    fn call(&mut self) -> Option<(Call, Vec<u8>, usize)> {
        let [kind, units, work_len, room, given] = [(); 5].map(|()| self.number());
        let place = u64_at(self.bytes(8), 0);
        let number = u32_at(self.bytes(4), 0);
        let path = self.bytes(2 * units).chunks(2).map(|unit| u16::from_le_bytes([unit[0], unit[1]])).collect();
        let mut buffer = self.bytes(given).to_vec();
        buffer.resize(room, 90);
        let call = match kind {
            0 => Call::Validate,
            1 => Call::Find { path },
            2 => Call::Read { path, offset: place, out: buffer.clone() },
            3 => Call::List { out: buffer.clone() },
            4 => Call::Overwrite { path, offset: place, bytes: buffer.clone() },
            5 => Call::SetLength { path, length: place },
            6 => Call::CreateStream { path },
            7 => Call::CreateStorage { path },
            8 => Call::Remove { path },
            9 => Call::Format(plan(&buffer)?),
            10 => Call::Repair { spare: buffer.clone() },
            11 => Call::ReadAt { entry: number, position: place, out: buffer.clone() },
            12 => Call::PulseSummary { path },
            13 => Call::PulseRecord { path, number },
            14 => Call::PulseAdd { path, pulse: Pulse { valve: place as u16, ticks: number } },
            _ => return None,
        };
        Some((call, buffer, work_len))
    }
}

/// What a fresh image is asked for, if the buffer is long enough.
fn plan(buffer: &[u8]) -> Option<Fresh> {
    (buffer.len() >= 36).then(|| Fresh {
        version: u32_at(buffer, 0),
        sectors: u64_at(buffer, 4),
        directory: u64_at(buffer, 12),
        mini_fat: u64_at(buffer, 20),
        minis: u64_at(buffer, 28),
    })
}

fn line(call: &Call, buffer: &[u8], image: &mut [u8], work_len: usize) -> String {
    let Outcome { answer, values, out } = perform(call, image, work_len);
    let [entry, kind, size, count] = columns(call, values);
    let lent = matches!(call, Call::Read { .. } | Call::List { .. } | Call::Repair { .. } | Call::ReadAt { .. });
    let buffer = if lent { &out } else { buffer };
    let untouched = !call.has_work() || answer == 1 || answer == 2;
    let zeros = if untouched { 0 } else { work_needed(image.len()) };
    format!("{answer} {entry} {kind} {size} {count} {zeros} {} {}\n", digest(buffer), digest(image))
}

/// A call's values as entry, type, size and count. A record's valve stands with the entries, and ticks with the sizes.
fn columns(call: &Call, values: [u64; 3]) -> [u64; 4] {
    let [first, second, third] = values;
    match call {
        Call::Find { .. } => [first, second, third, 0],
        Call::PulseSummary { .. } => [0, 0, second, first],
        Call::PulseRecord { .. } => [first, 0, second, 0],
        _ => [0, 0, 0, first],
    }
}

fn digest(bytes: &[u8]) -> u32 {
    bytes.iter().fold(1u32, |h, &byte| h.wrapping_mul(16_777_619).wrapping_add(byte as u32))
}
