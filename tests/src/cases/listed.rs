//! Listings read back: of a random image, or of one after some calls, each listed path is found with its type and size, and
//! no path that is one name off.

use super::Case;
use super::lists::List;
use crate::calls::Call;
use crate::compare::{After, Tally};
use crate::images::Sample;
use crate::images::names;
use crate::images::random_plan;
use crate::listed::reader::Object;
use crate::listed::{self, Listed, off};
use crate::model::Model;
use crate::random::Random;
use crate::volume::entry::{STORAGE, STREAM};
use crate::volume::{admit, work_needed};
use std::collections::BTreeSet;
use std::rc::Rc;

/// Runs one image, up to the first thing that is wrong; `shown` prints each call.
pub fn run(seed: u64, number: u64, shown: bool, tally: &mut Tally) {
    let name = format!("seed {seed} listed {number}");
    let mut r = Random::of(seed.rotate_left(24), number);
    let (image, model) = match some_image(&name, &mut r, shown, tally) {
        Some(made) => made,
        None => return,
    };
    let Some(listed) = listing(&name, &image, &model, shown, tally) else { return };
    let mut finds = Finds { name: &name, image: &image, listed: &listed, shown, entries: BTreeSet::new() };
    if finds.listed_paths(&mut r, tally).is_some() {
        tally.pass(&name, finds.every_entry());
        finds.other_paths(&mut r, tally);
    }
}

/// A random image with its rows; every other one after a few random calls.
fn some_image(name: &str, r: &mut Random, shown: bool, tally: &mut Tally) -> Option<(Vec<u8>, Rc<Model>)> {
    let plan = random_plan::plan(r);
    let sample = Sample::build(&plan, r);
    let mut model = Rc::new(Model::of(&sample));
    let mut list = List::on(sample, name.to_string(), Random::of(r.draw(), 0), shown);
    let calls = if r.one_in(2) { 0 } else { r.between(1, 6) };
    for _ in 0..calls {
        let work_len = list.work_len();
        list.next(work_len, |name, case| {
            let after = tally.run(name, case)?;
            model = after.model.clone().expect("a case with rows leaves rows");
            Some(after)
        })?;
    }
    Some((std::mem::take(&mut list.image), model))
}

/// The listing that a call hands over, read back. It must be what the rows say, in any order.
fn listing(name: &str, image: &[u8], model: &Rc<Model>, shown: bool, tally: &mut Tally) -> Option<Listed> {
    let out = vec![b'#'; model.listing().len() + 3];
    let after = made(name, Call::List { out }, 0, image, shown, tally)?;
    let count = after.outcome.values[0] as usize;
    let listed = Listed::read(&after.outcome.out[..count]).and_then(|listed| {
        let objects: BTreeSet<(u8, u64, Vec<u16>)> = listed.objects.iter().map(shape).collect();
        let rows: BTreeSet<(u8, u64, Vec<u16>)> =
            model.rows[1..].iter().map(|row| of_row(&row.path, &row.bytes)).collect();
        let same = objects == rows && listed.objects.len() == rows.len();
        if same { Ok(listed) } else { Err("the listing read back is not the rows'".to_string()) }
    });
    tally.pass(name, listed)
}

fn shape(object: &Object) -> (u8, u64, Vec<u16>) {
    (object.kind, object.size, listed::path(&object.path))
}

fn of_row(path: &[Vec<u16>], bytes: &Option<Vec<u8>>) -> (u8, u64, Vec<u16>) {
    let kind = if bytes.is_some() { STREAM } else { STORAGE };
    (kind, bytes.as_ref().map_or(0, |bytes| bytes.len() as u64), listed::path(path))
}

/// Has a call run whose answer is known.
fn made(name: &str, call: Call, expected: u32, image: &[u8], shown: bool, tally: &mut Tally) -> Option<After> {
    let case = Case { call, ..Case::new("listed", image.to_vec(), work_needed(image.len()), Some(expected)) };
    if shown {
        println!("{name}: {}", case.description());
    }
    tally.run(name, &case)
}

/// Finds on an image, by its listing.
struct Finds<'a> {
    name: &'a str,
    image: &'a [u8],
    listed: &'a Listed,
    shown: bool,
    /// The entries that the listed paths led to.
    entries: BTreeSet<u64>,
}

impl Finds<'_> {
    /// Each listed path is found, as it is spelled and with letters in the other case; None if one is not.
    fn listed_paths(&mut self, r: &mut Random, tally: &mut Tally) -> Option<()> {
        for object in &self.listed.objects {
            let path = listed::path(&object.path);
            let entry = self.found(object, path.clone(), tally)?;
            let again = self.found(object, names::respelled(&path, || r.one_in(2)), tally)?;
            tally
                .pass(self.name, if entry == again { Ok(()) } else { Err("another entry by other letters".into()) })?;
            self.entries.insert(entry);
        }
        Some(())
    }

    /// The entry that a path leads to, where it has the listed object's type and size.
    fn found(&self, object: &Object, path: Vec<u16>, tally: &mut Tally) -> Option<u64> {
        let after = made(self.name, Call::Find { path }, 0, self.image, self.shown, tally)?;
        let [entry, kind, size] = after.outcome.values;
        let right = (kind, size) == (object.kind as u64, object.size);
        tally.pass(self.name, if right { Ok(entry) } else { Err(format!("found type {kind}, size {size}")) })
    }

    /// The listed paths lead to the entries of type 1 and 2, to each once.
    fn every_entry(&self) -> Result<(), String> {
        let volume = admit(self.image, work_needed(self.image.len())).map_err(|answer| format!("answered {answer}"))?;
        let kinds = volume.directory.entries().map(|entry| entry.kind()).zip(0..);
        let objects: BTreeSet<u64> =
            kinds.filter(|(kind, _)| [STORAGE, STREAM].contains(kind)).map(|(_, number)| number).collect();
        let right = self.entries == objects && self.entries.len() == self.listed.objects.len();
        if right { Ok(()) } else { Err("the listed paths lead to other entries than the objects'".to_string()) }
    }

    /// The root is found, and no path that is one name off from a listed one.
    fn other_paths(&self, r: &mut Random, tally: &mut Tally) -> Option<()> {
        made(self.name, Call::Find { path: Vec::new() }, 0, self.image, self.shown, tally)?;
        for object in &self.listed.objects {
            for names in off::all(&object.path, r) {
                let answer = self.listed.answer(&names);
                if answer != 0 {
                    made(self.name, Call::Find { path: listed::path(&names) }, answer, self.image, self.shown, tally)?;
                }
            }
        }
        Some(())
    }
}
