//! Pulse streams in an image (W-208).

use super::Sample;
use super::layout::Node;
use super::write::is_large;
use crate::calls::pulse::Pulse;
use crate::number::MINI_SECTOR;
use crate::random::Random;

/// The bytes of records and of the trailer behind them: what a pulse stream is but for its preamble.
pub fn written(pulses: &[Pulse]) -> Vec<u8> {
    let mut bytes = Vec::with_capacity(8 * pulses.len() + 16);
    let mut total = 0;
    for pulse in pulses {
        let [low, high] = pulse.valve.to_le_bytes();
        bytes.extend([low, high, 0, 0]);
        bytes.extend(pulse.ticks.to_le_bytes());
        total += pulse.ticks as u64;
    }
    trailer(&mut bytes, 16 + 8 * pulses.len() as u32, pulses.len() as u32, total);
    bytes
}

/// A trailer of any numbers behind other bytes.
pub fn trailer(bytes: &mut Vec<u8>, distance: u32, count: u32, total: u64) {
    bytes.extend(distance.to_le_bytes());
    bytes.extend(count.to_le_bytes());
    bytes.extend(total.to_le_bytes());
}

/// Any pulse of at least one tick: often of one, or of the most.
pub fn some(random: &mut Random) -> Pulse {
    let ticks = match random.below(4) {
        0 => random.pick(&[1, 2, u32::MAX - 1, u32::MAX]),
        1 => random.word().max(1),
        _ => random.between(1, 5_000),
    };
    Pulse { valve: random.word() as u16, ticks }
}

/// The end of a stream of this length, if it has room for a trailer: some records, often as many as fit, and the trailer.
pub fn end_of(length: usize, random: &mut Random) -> Option<Vec<u8>> {
    let most = length.checked_sub(16)? / 8;
    let count = match random.below(4) {
        0 => most,
        1 => most.min(random.index(4)),
        _ => random.index(most + 1),
    };
    let pulses: Vec<Pulse> = (0..count).map(|_| some(random)).collect();
    Some(written(&pulses))
}

impl Sample {
    /// Makes some of the streams pulse streams: of those that have room for a trailer two in three, of which some are not quite right.
    pub fn lay_pulses(&mut self, random: &mut Random) {
        for node in self.layout.nodes.clone() {
            let length = node.size.unwrap_or(0) as usize;
            let Some(mut end) = end_of(length, random).filter(|_| !random.one_in(3)) else { continue };
            if random.one_in(8) {
                let place = random.index(end.len());
                end[place] ^= 1 << random.below(8);
            }
            self.put_end(&node, &end);
        }
    }

    /// Puts bytes at the end of a stream.
    pub fn put_end(&mut self, node: &Node, end: &[u8]) {
        let from = node.size.expect("a stream") as usize - end.len();
        for (i, &byte) in end.iter().enumerate() {
            let at = self.byte_of(node, from + i);
            self.image[at] = byte;
        }
    }

    /// Where a stream's byte lies.
    fn byte_of(&self, node: &Node, offset: usize) -> usize {
        let (g, mini) = (self.layout.geometry, MINI_SECTOR as usize);
        if is_large(node) {
            return g.place(node.units[offset / g.sector]) + offset % g.sector;
        }
        let m = node.units[offset / mini] as usize;
        g.place(self.layout.mini_stream[m / g.minis]) + m % g.minis * mini + offset % mini
    }
}
