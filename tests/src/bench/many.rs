//! A file that a program may keep opened: 5,000 small streams in 50 storages, some 7 MB; and a thousand calls on it.

use crate::calls::{Call, read};
use crate::cases::large::{OF_8_MIB, many_streams};
use crate::geometry::V3;
use crate::images::plan::Plan;
use crate::images::{Sample, names, write};
use crate::random::Random;
use crate::volume::Volume;

pub const STREAMS: usize = 5_000;
pub const CALLS: usize = 1_000;
/// The bytes of each stream, and of a read.
pub const BYTES: usize = 1_000;

/// In the plainest layout, with a name for the root, since other programs read this file too.
pub fn image() -> Vec<u8> {
    let streams = many_streams(V3, OF_8_MIB, STREAMS, &[BYTES as u32]);
    let plan = Plan { sectors: None, free: 1_000, spare_minis: 1_000, ..streams };
    let mut random = Random::of(7, 7);
    let Sample { mut image, layout } = Sample::build(&plan, &mut random);
    write::name(&mut image, layout.entry(0), &names::of("Root Entry"));
    for &s in &layout.mini_stream {
        random.fill(&mut image[V3.place(s)..][..V3.sector]);
    }
    image
}

/// Whole streams.
pub fn reads() -> Vec<Call> {
    (0..CALLS).map(|i| Call::Read { path: path(i), offset: 0, out: vec![0; BYTES] }).collect()
}

/// All bytes of these reads added up, by the independent calls.
pub fn sum(image: &[u8]) -> u64 {
    let volume = Volume::open(image).expect("a valid image");
    let mut out = vec![0; BYTES];
    let mut one = |i| {
        read::read(&volume, &path(i), 0, &mut out).expect("a stream at this path");
        out.iter().map(|&byte| byte as u64).sum::<u64>()
    };
    (0..CALLS).map(&mut one).sum()
}

/// Other lengths, the last of them over the cutoff. There is room for all.
pub fn changes() -> Vec<Call> {
    let lengths = [1_060, 64, 1_300, 900, 1_500, 0, 2_000, 1_024, 1, 5_000];
    (0..CALLS).map(|i| Call::SetLength { path: path(i), length: lengths[i % lengths.len()] }).collect()
}

/// Each call has another stream, far from the one before. The programs in `others` take the same ones.
fn path(i: usize) -> Vec<u16> {
    let stream = i * 1_237 % STREAMS;
    names::of(&format!("storage {:05}/stream {stream:05}", stream / 100 * 100))
}
