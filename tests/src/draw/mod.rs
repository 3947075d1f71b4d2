//! Random calls, most of them close to a line that the papers draw.

mod entries;
pub mod fresh;
mod numbers;
mod paths;
pub mod pulses;

use crate::calls::Call;
use crate::images;
use crate::model::Model;
use crate::random::Random;

/// A call on an image that holds these rows.
pub fn call(model: &Model, r: &mut Random) -> Call {
    match r.below(48) {
        0..6 => Call::CreateStream { path: paths::new(model, r) },
        6..9 => Call::CreateStorage { path: paths::new(model, r) },
        9..16 => Call::Remove { path: paths::old(model, r) },
        16 => Call::Format(fresh::asked(model.bytes(), r)),
        17 => Call::Repair { spare: spare(model.bytes(), r) },
        _ => on_streams(model, r),
    }
}

/// One that leaves every object where it is.
pub fn on_streams(model: &Model, r: &mut Random) -> Call {
    match r.below(44) {
        0 => Call::Validate,
        1..5 => Call::Find { path: paths::path(model, r) },
        5..10 => read(model, r),
        10..13 => list(model, r),
        13..20 => overwrite(model, r),
        20..24 => read_at(model, r),
        24..32 => pulses::call(model, r),
        _ => set_length(model, r),
    }
}

fn read_at(model: &Model, r: &mut Random) -> Call {
    let entry = entries::entry(model, r);
    let size = model.stream_at(entry).map_or_else(|| r.below(5_000) as u64, |bytes| bytes.len() as u64);
    let position = numbers::offset(model.geometry, size, r);
    let out = numbers::out_len(size.saturating_sub(position), r);
    Call::ReadAt { entry, position, out: noise(out, r) }
}

fn read(model: &Model, r: &mut Random) -> Call {
    let path = paths::path(model, r);
    let size = size(model, &path, r);
    let offset = numbers::offset(model.geometry, size, r);
    let out = numbers::out_len(size.saturating_sub(offset), r);
    Call::Read { path, offset, out: noise(out, r) }
}

fn list(model: &Model, r: &mut Random) -> Call {
    let need = model.listing().len();
    let out = numbers::out_len(need as u64, r);
    Call::List { out: noise(out, r) }
}

fn overwrite(model: &Model, r: &mut Random) -> Call {
    let path = paths::path(model, r);
    let size = size(model, &path, r);
    // Now and then it is a pulse stream then.
    if let Some(bytes) = images::pulses::end_of(size as usize, r).filter(|_| r.one_in(10)) {
        return Call::Overwrite { path, offset: size - bytes.len() as u64, bytes };
    }
    let offset = numbers::offset(model.geometry, size, r);
    let count = numbers::write_len(size, offset, r);
    Call::Overwrite { path, offset, bytes: noise(count, r) }
}

fn set_length(model: &Model, r: &mut Random) -> Call {
    let path = paths::path(model, r);
    let size = size(model, &path, r);
    let length = numbers::length(model, size, r);
    Call::SetLength { path, length }
}

/// The length of the stream at this path, or any where there is none.
fn size(model: &Model, path: &[u16], r: &mut Random) -> u64 {
    let meant = model.meant(path).ok().and_then(|row| model.rows[row].bytes.as_ref());
    meant.map_or_else(|| r.below(5_000) as u64, |bytes| bytes.len() as u64)
}

/// A spare buffer for an image of this length: mostly exactly enough, often more, sometimes too short.
pub fn spare(needed: usize, r: &mut Random) -> Vec<u8> {
    let len = match r.below(30) {
        0 => 0,
        1 => needed.saturating_sub(1),
        2 => r.index(needed),
        3..9 => needed + r.between(1, 600) as usize,
        _ => needed,
    };
    noise(len, r)
}

pub fn noise(len: usize, r: &mut Random) -> Vec<u8> {
    let mut bytes = vec![0; len];
    r.fill(&mut bytes);
    bytes
}
