//! Paths: those that are there, those that nearly are, and those that are badly formed.

use crate::images::names::{self, Alphabet, BESIDE, REFUSED};
use crate::model::{Model, Row};
use crate::random::Random;

const SLASH: u16 = b'/' as u16;

pub fn path(model: &Model, r: &mut Random) -> Vec<u16> {
    match r.below(32) {
        0..18 => of(&stream(model, r)),
        18..20 => of(&object(model, r)),
        20..24 => recased(&of(&stream(model, r)), r),
        24 => Vec::new(),
        25..27 => absent(model, r),
        27 => through_stream(model, r),
        28 => changed(&of(&object(model, r)), r),
        _ => badly_formed(model, r),
    }
}

/// Mostly a pulse stream's, if there is one, also in other letters.
pub fn to_pulses(model: &Model, r: &mut Random) -> Vec<u16> {
    let names = of_some(&model.rows, r, |row| row.pulses().is_some());
    match r.below(8) {
        0..2 => path(model, r),
        _ if names.is_empty() => path(model, r),
        2..4 => recased(&of(&names), r),
        _ => of(&names),
    }
}

/// A path for an object to be created.
pub fn new(model: &Model, r: &mut Random) -> Vec<u16> {
    match r.below(32) {
        0..10 => of(&[storage(model, r), vec![name(r)]].concat()),
        // Few names: they come again, in either case, and after they are removed.
        10..15 => of(&[storage(model, r), vec![names::of(r.pick(&["a", "A", "b", "log", "LOG", "Log"]))]].concat()),
        15..19 => beside(model, r),
        19..22 => recased(&of(&object(model, r)), r),
        22 => Vec::new(),
        23..26 => absent(model, r),
        26..28 => through_stream(model, r),
        28 => changed(&of(&object(model, r)), r),
        _ => badly_formed(model, r),
    }
}

/// A path for an object to be removed.
pub fn old(model: &Model, r: &mut Random) -> Vec<u16> {
    match r.below(32) {
        0..14 => of(&leaf(model, r)),
        14..18 => recased(&of(&leaf(model, r)), r),
        18..20 => of(&object(model, r)),
        20..23 => of(&storage(model, r)),
        23 => Vec::new(),
        24..27 => absent(model, r),
        27..29 => through_stream(model, r),
        29 => changed(&of(&object(model, r)), r),
        _ => badly_formed(model, r),
    }
}

/// The names as a path.
fn of(names: &[Vec<u16>]) -> Vec<u16> {
    names.join(&SLASH)
}

/// The names of any object; none where there is nothing but the root.
fn object(model: &Model, r: &mut Random) -> Vec<Vec<u16>> {
    of_some(&model.rows[1..], r, |_| true)
}

fn stream(model: &Model, r: &mut Random) -> Vec<Vec<u16>> {
    of_some(&model.rows, r, |row| row.bytes.is_some())
}

/// The root's too.
fn storage(model: &Model, r: &mut Random) -> Vec<Vec<u16>> {
    of_some(&model.rows, r, |row| row.bytes.is_none())
}

/// An object that holds no other; the root where there is nothing else.
fn leaf(model: &Model, r: &mut Random) -> Vec<Vec<u16>> {
    let mut names = object(model, r);
    loop {
        let below = |row: &&Row| row.path.len() > names.len() && row.path.starts_with(&names);
        let inside: Vec<&Row> = model.rows.iter().filter(below).collect();
        match r.some(&inside) {
            Some(row) => names = row.path.clone(),
            None => return names,
        }
    }
}

fn of_some(rows: &[Row], r: &mut Random, asked: fn(&Row) -> bool) -> Vec<Vec<u16>> {
    let rows: Vec<&Row> = rows.iter().filter(|&row| asked(row)).collect();
    r.some(&rows).map(|row| row.path.clone()).unwrap_or_default()
}

fn name(r: &mut Random) -> Vec<u16> {
    let alphabet = r.pick(&Alphabet::ALL);
    names::random(r, alphabet)
}

/// Letters in the other case, which mean the same.
fn recased(path: &[u16], r: &mut Random) -> Vec<u16> {
    names::respelled(path, || r.one_in(2))
}

/// One unit a little off, often by as much as a letter is from its capital: whether or not it is a letter, and one of those.
fn changed(path: &[u16], r: &mut Random) -> Vec<u16> {
    let mut path = path.to_vec();
    let at = r.index(path.len());
    if let Some(unit) = path.get_mut(at) {
        let far = r.pick(&[0x20, 0x20, 0x20, 0x50, 0x79, 1, 0x100, 0x8000]);
        *unit = r.pick(&[unit.wrapping_add(far), unit.wrapping_sub(far), *unit ^ far]);
    }
    path
}

/// A name that is not there: any, one that is there and a unit more or less, on the way or at the end.
fn absent(model: &Model, r: &mut Random) -> Vec<u16> {
    let mut names = object(model, r);
    match r.below(6) {
        0 => names = [storage(model, r), vec![name(r)]].concat(),
        1 => names = [storage(model, r), vec![name(r); 40]].concat(),
        2 => names.insert(r.index(names.len()), name(r)),
        3 => drop(names.last_mut().map(|last| last.pop())),
        4 => drop(names.last_mut().map(|last| last.push(b'a' as u16))),
        _ => names.reverse(),
    }
    of(&names)
}

/// A name that stands close to one that is there in the order of names: its last unit is another, it is one unit longer or shorter,
/// or it is that name.
fn beside(model: &Model, r: &mut Random) -> Vec<u16> {
    let mut names = object(model, r);
    if let Some(last) = names.last_mut() {
        match r.below(4) {
            0 => last.push(r.pick(&[0x20, 0x41, 0x61, 0x430])),
            1 => drop(last.pop()),
            _ => {
                let unit = last.pop().unwrap_or(0x41);
                last.push(unit.wrapping_add(r.pick(&[0, 1, 1, 2, u16::MAX, u16::MAX - 1])));
            }
        }
    }
    of(&names)
}

/// A stream as if it were a storage; what follows may be a name that is there.
fn through_stream(model: &Model, r: &mut Random) -> Vec<u16> {
    let mut names = stream(model, r);
    names.push(name(r));
    if r.one_in(2) {
        names.extend(object(model, r));
    }
    of(&names)
}

/// Names are there or not: the path is judged as a whole before any is looked up.
fn badly_formed(model: &Model, r: &mut Random) -> Vec<u16> {
    let mut path = match r.below(4) {
        0 => absent(model, r),
        1 => through_stream(model, r),
        _ => of(&object(model, r)),
    };
    match r.below(8) {
        0 => path.insert(0, SLASH),
        1 => path.push(SLASH),
        2 => path = vec![SLASH; r.between(1, 3) as usize],
        3 => double_slash(&mut path, r),
        4 => path = of(&long_name(model, r)),
        5 => path.push(r.pick(&REFUSED)),
        6 => path.insert(r.index(path.len() + 1), r.pick(&REFUSED)),
        // The path stays well formed, if it was and no name gets too long.
        _ => path.insert(r.index(path.len() + 1), r.pick(&BESIDE)),
    }
    path
}

fn double_slash(path: &mut Vec<u16>, r: &mut Random) {
    let slashes: Vec<usize> = (0..path.len()).filter(|&at| path[at] == SLASH).collect();
    match r.some(&slashes) {
        Some(&at) => path.insert(at, SLASH),
        None => path.extend([SLASH, SLASH, 0x41]),
    }
}

/// A name of 31 units or more, on the way or at the end; its front is a name that is there.
fn long_name(model: &Model, r: &mut Random) -> Vec<Vec<u16>> {
    let mut names = object(model, r);
    let units = r.pick(&[31, 32, 32, 32, 33, 64, 287]);
    let at = r.index(names.len());
    match names.get_mut(at) {
        Some(name) => name.resize(units, 0x61),
        None => names.push(vec![0x61; units]),
    }
    names
}
