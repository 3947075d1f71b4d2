//! Lists of calls on one volume, in which a directory is filled to its last blank entry and emptied again in another order, twice
//! (W-203). Where the library's opened calls are linked, the volume is opened once before them and closed behind them.

use super::lists::{List, OneVolume};
use crate::calls::Call;
use crate::compare::Tally;
use crate::draw;
use crate::geometry::{Geometry, VERSIONS};
use crate::images::Sample;
use crate::images::names::{self, Alphabet};
use crate::images::plan::{Fill, Order, Plan};
use crate::model::Row;
use crate::random::Random;
use crate::volume::work_needed;

/// The sectors of the directories, each in either version.
const SECTORS: [u32; 3] = [1, 2, 6];
pub const LISTS: u64 = 2 * SECTORS.len() as u64;

/// Runs the list, up to the first call that fails; `shown` prints each call and its answer.
pub fn run(seed: u64, number: u64, shown: bool, tally: &mut Tally) {
    let mut r = Random::of(seed.rotate_left(56), number);
    let sample = sample(VERSIONS[number as usize % 2], SECTORS[number as usize / 2], &mut r);
    let work_len = work_needed(sample.image.len());
    let list = List::on(sample, format!("seed {seed} crowded {number}"), r.clone(), shown);
    let Some(mut volume) = OneVolume::open(list, work_len, tally) else { return };
    if twice(&mut volume, &mut r).is_some() {
        volume.close();
    }
}

/// Nothing but blank entries, and free units full of noise.
fn sample(g: Geometry, sectors: u32, r: &mut Random) -> Sample {
    let some = Plan { fill: Fill::Noise, free: 30, spare_minis: 90, spare_directory: sectors - 1, ..Plan::of(g) };
    Sample::build(&Plan { order: Order::Scattered, mini_order: Order::Scattered, ..some }, r)
}

fn twice(volume: &mut OneVolume, r: &mut Random) -> Option<()> {
    for _ in 0..2 {
        fill(volume, r)?;
        emptied(volume, r)?;
        volume.make(Call::Remove { path: Vec::new() }, Some(31))?;
        volume.make(Call::List { out: vec![b'#'; 10] }, Some(0))?;
    }
    Some(())
}

/// Objects in any storage, until no entry is blank. Between them calls of every other kind are made.
fn fill(volume: &mut OneVolume, r: &mut Random) -> Option<()> {
    let alphabet = r.pick(&Alphabet::ALL);
    while !volume.rows().blanks.is_empty() {
        let path = beside(volume, alphabet, r);
        let create = created(path.clone(), r);
        let there = volume.rows().meant(&path).is_ok();
        volume.make(create, Some(if there { 29 } else { 0 }))?;
        let call = draw::on_streams(volume.rows(), r);
        volume.make(call, None)?;
    }
    for _ in 0..4 {
        let path = beside(volume, alphabet, r);
        let there = volume.rows().meant(&path).is_ok();
        volume.make(created(path, r), Some(if there { 29 } else { 30 }))?;
    }
    Some(())
}

/// Any object is removed, if there is none in it, until there is none.
fn emptied(volume: &mut OneVolume, r: &mut Random) -> Option<()> {
    while volume.rows().rows.len() > 1 {
        let at = r.between(1, volume.rows().rows.len() as u32 - 1) as usize;
        let path = volume.rows().rows[at].path.join(&(b'/' as u16));
        let answer = if volume.rows().holds_others(at) { 28 } else { 0 };
        volume.make(Call::Remove { path }, Some(answer))?;
        let call = draw::on_streams(volume.rows(), r);
        volume.make(call, None)?;
    }
    Some(())
}

/// A path into a storage that is there.
fn beside(volume: &OneVolume, alphabet: Alphabet, r: &mut Random) -> Vec<u16> {
    let storages: Vec<&Row> = volume.rows().rows.iter().filter(|row| row.bytes.is_none()).collect();
    let storage = r.pick(&storages).path.clone();
    [storage, vec![names::random(r, alphabet)]].concat().join(&(b'/' as u16))
}

fn created(path: Vec<u16>, r: &mut Random) -> Call {
    if r.one_in(3) { Call::CreateStorage { path } } else { Call::CreateStream { path } }
}
