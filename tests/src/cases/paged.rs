//! Streams read to their end at a cursor, in random pieces, on one volume (W-212): what the pieces hand over is what one read does. Where
//! the library's opened calls are linked, the volume is opened once before them and closed behind them.

use super::lists::{List, OneVolume};
use crate::calls::Call;
use crate::compare::Tally;
use crate::draw;
use crate::images::plan::Fill;
use crate::images::{Sample, random_plan};
use crate::model::Row;
use crate::number::NOSTREAM;
use crate::random::Random;
use crate::volume::work_needed;

/// So many streams of an image, at most.
const STREAMS: usize = 3;
/// So many pieces of random lengths; the next one takes the rest.
const PIECES: usize = 10;

/// Runs one image, up to the first call that fails; `shown` prints each call and its answer.
pub fn run(seed: u64, number: u64, shown: bool, tally: &mut Tally) {
    let mut r = Random::of(seed.rotate_left(40), number);
    let sample = sample(&mut r);
    let needed = work_needed(sample.image.len());
    let mut list = List::on(sample, format!("seed {seed} paged {number}"), r.clone(), shown);
    let work_len = list.work_len().max(needed);
    let Some(mut volume) = OneVolume::open(list, work_len, tally) else { return };
    if streams(&mut volume, &mut r).and_then(|()| others(&mut volume, &mut r)).is_some() {
        volume.close();
    }
}

/// Noise in the streams shows which bytes were read.
fn sample(r: &mut Random) -> Sample {
    let mut plan = if r.one_in(2) { random_plan::plan(r) } else { random_plan::scarce(r) };
    plan.fill = Fill::Noise;
    Sample::build(&plan, r)
}

/// Some of the streams, each from its start or from any place on.
fn streams(volume: &mut OneVolume, r: &mut Random) -> Option<()> {
    let mut rows: Vec<Row> = volume.rows().rows.iter().filter(|row| row.bytes.is_some()).cloned().collect();
    r.shuffle(&mut rows);
    for row in rows.into_iter().take(STREAMS) {
        let size = row.bytes.as_ref().map_or(0, Vec::len);
        let from = if r.one_in(2) { 0 } else { r.index(size + 1) };
        to_the_end(volume, &row, from as u64, size as u64, r)?;
    }
    Some(())
}

/// From a position to the end, and a read behind it, which is refused and leaves the cursor for another one at the end.
fn to_the_end(volume: &mut OneVolume, row: &Row, from: u64, size: u64, r: &mut Random) -> Option<()> {
    let out = draw::noise((size - from) as usize, r);
    let path = row.path.join(&(b'/' as u16));
    let whole = volume.make(Call::Read { path, offset: from, out }, Some(0))?;
    let (mut position, mut bytes) = (from, Vec::new());
    for number in 0.. {
        let rest = (size - position) as usize;
        let out = draw::noise(if number < PIECES { some_length(rest, r) } else { rest + 1 }, r);
        let piece = volume.make(Call::ReadAt { entry: row.entry, position, out }, Some(0))?;
        let count = piece.values[0];
        bytes.extend_from_slice(&piece.out[..count as usize]);
        position += count;
        if count == 0 {
            break;
        }
    }
    let right = position == size && bytes == whole.out;
    volume.pass(if right { Ok(()) } else { Err("the pieces are not what one read gives".to_string()) })?;
    for (position, answer) in [(size + 1, 24), (u64::MAX, 24), (size, 0)] {
        volume.make(Call::ReadAt { entry: row.entry, position, out: draw::noise(9, r) }, Some(answer))?;
    }
    Some(())
}

/// A length of at least a byte, where so many are left: often one that ends a unit.
fn some_length(rest: usize, r: &mut Random) -> usize {
    match r.below(6) {
        0 => 1,
        1 => r.pick(&[2, 7, 63, 64, 65]),
        2 => r.pick(&[511, 512, 513]),
        3 => r.pick(&[4_095, 4_096, 4_097]),
        _ => 1 + r.index(rest.max(1)),
    }
}

/// One entry of each kind that is no stream: the root, a storage, a blank one, the first past the directory, and the greatest number.
fn others(volume: &mut OneVolume, r: &mut Random) -> Option<()> {
    let rows = volume.rows();
    let storages: Vec<u32> = rows.rows.iter().filter(|row| row.bytes.is_none()).map(|row| row.entry).collect();
    let blanks: Vec<u32> = rows.blanks.iter().copied().collect();
    let some = [r.some(&storages).copied(), r.some(&blanks).copied()].into_iter().flatten();
    let all: Vec<u32> = some.chain([0, rows.entries(), NOSTREAM]).collect();
    for entry in all {
        let position = r.pick(&[0, 1, 64, 5_000, u64::MAX]);
        volume.make(Call::ReadAt { entry, position, out: draw::noise(9, r) }, Some(33))?;
    }
    Some(())
}
