//! Streams and storages created and removed (W-203).

use super::plain_siblings::Plain;
use crate::breaks::edit::{CHILD, LEFT, RIGHT};
use crate::calls::{ANSWERS, Call, Outcome, perform};
use crate::cases::siblings::{self, NAMES, hang, trees};
use crate::cases::{crowded, new_names, object_lists, objects};
use crate::compare::Tally;
use crate::effects;
use crate::geometry::{Geometry, VERSIONS};
use crate::images::plan::{Fill, Order, Plan};
use crate::images::{Sample, names, write};
use crate::number::*;
use crate::random::Random;
use crate::volume::{Volume, validate, work_needed};

#[test]
fn cases_of_objects() {
    let mut tally = Tally::new();
    let cases =
        VERSIONS.map(|g| [objects::cases(g), new_names::cases(g), object_lists::cases(g), siblings::cases(g)].concat());
    for (number, case) in cases.concat().into_iter().enumerate() {
        assert!(tally.run(&format!("case {number}"), &case).is_some());
    }
    for number in 0..crowded::LISTS {
        crowded::run(1, number, false, &mut tally);
    }
    tally.ask_for_every_answer(&ANSWERS[6..9]);
    assert!(tally.passed > 8_000 && tally.failed == 0, "{}", tally.passed);
}

fn create(path: &str, kind: u8) -> Call {
    let path = names::of(path);
    if kind == 2 { Call::CreateStream { path } } else { Call::CreateStorage { path } }
}

fn remove(path: &str) -> Call {
    Call::Remove { path: names::of(path) }
}

/// The image after a call that is done.
fn after(image: &[u8], call: Call) -> Vec<u8> {
    let (mut image, work_len) = (image.to_vec(), work_needed(image.len()));
    assert_eq!(perform(&call, &mut image, work_len).answer, 0, "{call}");
    image
}

/// A storage Site with a stream log, which are entries 1 and 2, in an image full of noise.
fn site(g: Geometry) -> Sample {
    let some =
        Plan { fill: Fill::Noise, free: 2, spare_minis: 2, spare_directory: 1, rubbish_once_in: 1, ..Plan::of(g) };
    let mut plan = Plan { order: Order::Falling, ..some };
    let site = plan.add(0, names::of("Site"), None);
    plan.add(site, names::of("log"), Some(5_000));
    Sample::build(&plan, &mut Random::of(0, 0))
}

/// An entry written out.
fn gas(kind: u8, start: u32) -> Vec<u8> {
    let mut bytes = b"G\0a\0s\0".to_vec();
    bytes.resize(64, 0);
    bytes.extend([8, 0, kind, 1]);
    bytes.extend([0xFF; 12]);
    bytes.resize(116, 0);
    bytes.extend(start.to_le_bytes());
    bytes.resize(128, 0);
    bytes
}

/// Entry 3 gets these bytes, and one link names it. A blank entry of another sector lies before it in the file.
#[test]
fn bytes_of_a_creation() {
    for (g, (kind, start)) in VERSIONS.into_iter().flat_map(|g| [(g, (2, END)), (g, (1, 0))]) {
        let sample = site(g);
        assert!(sample.layout.entry(3) > sample.layout.entry(g.entries as u32));
        let due = |above: u32, link: usize| {
            let (mut due, place) = (sample.clone(), sample.layout.entry(3));
            due.image[place..place + 128].copy_from_slice(&gas(kind, start));
            due.set_field(above, link, 3);
            due.image
        };
        assert!(after(&sample.image, create("Gas", kind)) == due(1, LEFT));
        assert!(after(&sample.image, create("SITE/Gas", kind)) == due(2, LEFT));
        let mut longer = due(2, RIGHT);
        let place = sample.layout.entry(3);
        write::name(&mut longer, place, &names::of("Gases"));
        assert!(after(&sample.image, create("site/Gases", kind)) == longer);
    }
}

/// The child of a storage that was empty.
#[test]
fn bytes_of_a_first_child() {
    let sample = site(VERSIONS[0]);
    let image = after(&sample.image, create("Gas", 1));
    let mut due = Sample { image: image.clone(), ..sample };
    let place = due.layout.entry(4);
    due.image[place..place + 128].copy_from_slice(&gas(2, END));
    due.set_field(3, CHILD, 4);
    assert!(after(&image, create("gAS/Gas", 2)) == due.image);
}

/// The chain is free with its bytes as they were, the entry is blank, and its storage has nothing in it.
#[test]
fn bytes_of_a_removal() {
    for g in VERSIONS {
        let sample = site(g);
        let mut due = sample.clone();
        sample.layout.nodes[2].units.iter().for_each(|&unit| due.set_cell(unit, FREE));
        let place = sample.layout.entry(2);
        write::blank_entry(&mut due.image, place);
        due.set_field(1, CHILD, NOSTREAM);
        let image = after(&sample.image, remove("site/LOG"));
        assert!(image == due.image);
        let place = sample.layout.entry(1);
        write::blank_entry(&mut due.image, place);
        due.set_field(0, CHILD, NOSTREAM);
        assert!(after(&image, remove("sITE")) == due.image);
    }
}

/// The image is the one that a cut to nothing and a removal give.
#[test]
fn a_stream_is_cut_and_removed() {
    for number in 0..300 {
        let sample = Sample::random(&mut Random::of(10, number));
        let Some(stream) = sample.stream(&mut Random::of(11, number)) else { continue };
        let above = std::iter::successors(Some(stream.parent), |&at| (at > 0).then(|| sample.layout.nodes[at].parent));
        let mut names: Vec<Vec<u16>> = above.map(|at| sample.layout.nodes[at].name.clone()).collect();
        names.pop();
        names.reverse();
        names.push(stream.name);
        let path = names.join(&(b'/' as u16));
        let cut = after(&sample.image, Call::SetLength { path: path.clone(), length: 0 });
        let remove = Call::Remove { path };
        assert!(after(&cut, remove.clone()) == after(&sample.image, remove));
    }
}

/// Of all trees that the objects left could have, the properties allow the one that the call leaves, and no other.
#[test]
fn one_tree_is_left_by_a_removal() {
    let done = Outcome::of(Ok([0; 3]), Vec::new());
    for (g, tree) in VERSIONS.into_iter().flat_map(|g| trees(0, 4).into_iter().map(move |tree| (g, tree))) {
        let sample = siblings::site(g, 4, &tree, 0);
        let entries: Vec<u32> = sample.layout.nodes[2..6].iter().map(|node| node.entry).collect();
        for removed in 0..4 {
            let call = remove(&format!("Site/{}", NAMES[removed]));
            let left: Vec<u32> = entries.iter().copied().filter(|&entry| entry != entries[removed]).collect();
            let image = after(&sample.image, call.clone());
            let allowed = trees(0, 3).into_iter().filter(|other| {
                let mut changed = Sample { image: image.clone(), layout: sample.layout.clone() };
                hang(&mut changed, sample.layout.nodes[1].entry, &left, other);
                assert_eq!(validate(&changed.image, work_needed(image.len())), 0);
                let allowed = effects::check(&call, &done, &sample.image, &changed.image).is_ok();
                assert!(!allowed || changed.image == image);
                allowed
            });
            assert_eq!(allowed.count(), 1);
        }
    }
}

/// Lists of creations and removals leave the trees that the plainest functions give.
#[test]
fn trees_agree_with_plain_ones() {
    for number in 0..60 {
        let mut random = Random::of(9, number);
        let plan = Plan { spare_directory: 8, ..Plan::of(VERSIONS[number as usize % 2]) };
        let (mut image, mut plain) = (Sample::build(&plan, &mut random).image, Plain::None);
        let mut there: Vec<Vec<u16>> = Vec::new();
        for _ in 0..60 {
            let name = names::of(&random.pick(&["b", "Q", "bb", "x2", "abc"]).repeat(random.between(1, 6) as usize));
            let name = [name, vec![random.between(0x41, 0x5A) as u16]].concat();
            let known = there.iter().position(|other| names::key(other) == names::key(&name));
            let removed = (known.is_some() || random.one_in(3)) && !there.is_empty();
            if removed {
                let name = there.swap_remove(known.unwrap_or(random.index(there.len())));
                image = after(&image, Call::Remove { path: name.clone() });
                plain = plain.without(&name);
            } else if there.len() < 30 {
                image = after(&image, Call::CreateStream { path: name.clone() });
                plain = plain.with(&name);
                there.push(name);
            }
            let volume = Volume::open(&image).expect("a valid image");
            assert_eq!(Plain::of(&volume.directory, volume.directory.root().child()), plain);
        }
    }
}
