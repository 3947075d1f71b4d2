//! Random plans of either version: most of them small, all within the freedoms that the papers leave.

use super::names::{self, Alphabet};
use super::plan::*;
use super::units;
use crate::geometry::{Geometry, V3, V4, VERSIONS};
use crate::number::CUTOFF;
use crate::random::Random;
use std::collections::HashSet;

pub fn plan(random: &mut Random) -> Plan {
    let g = random.pick(&VERSIONS);
    let mut plan = free_choices(random, g);
    match random.below(100) {
        0..2 => {}
        2..56 => objects(&mut plan, random, 12, 24 << 10),
        56..80 => objects(&mut plan, random, 60, 40 << 10),
        80..84 => objects(&mut plan, random, 250, 8 << 10),
        84..86 => all_entries(&mut plan, random),
        86..88 => all_minis(&mut plan, random),
        // Of version 4 this takes at least 4 MiB.
        88..91 if g == V3 || random.one_in(16) => full_fat(&mut plan, random),
        91..96 => full_mini_fat(&mut plan, random),
        96..98 => long_fat(&mut plan, random, 109, if g == V3 { 130 } else { 112 }),
        98..100 if g == V3 => long_fat(&mut plan, random, 234, 240),
        _ => objects(&mut plan, random, 12, 40 << 10),
    }
    if random.one_in(8) {
        crowd(&mut plan, random);
    }
    plan
}

/// Few objects, a stream among them, and few free units of both kinds: length changes find just enough, or too few.
pub fn scarce(random: &mut Random) -> Plan {
    let g = random.pick(&VERSIONS);
    let mut plan = Plan::of(g);
    while plan.objects.iter().all(|object| object.size.is_none()) {
        plan = free_choices(random, g);
        let (most, room) = (random.pick(&[1, 2, 4, 8]), random.pick(&[0, 6 << 10, 12 << 10, 24 << 10]));
        objects(&mut plan, random, most, room);
    }
    plan.free = if g == V4 { random.below(6) } else { random.pick(&[0, 1, 2, 5, 7, 8, 9, 10, 16, 24]) };
    plan.spare_minis = random.pick(&[0, 1, 2, 3, 8, 20, 63, 64, 70, 140]);
    plan.fill = random.pick(&[Fill::Noise, Fill::Noise, Fill::Noise, Fill::Byte(0xFF)]);
    if random.one_in(3) {
        crowd(&mut plan, random);
    }
    plan
}

/// Few objects, and exactly so many FAT sectors, most of them for cells that are not needed.
pub fn with_fat(random: &mut Random, g: Geometry, fat: u32) -> Plan {
    let mut plan = free_choices(random, g);
    long_fat(&mut plan, random, fat, fat);
    plan
}

/// Everything but the objects.
fn free_choices(random: &mut Random, g: Geometry) -> Plan {
    Plan {
        shape: random.pick(&[
            Shape::Random,
            Shape::Random,
            Shape::Balanced,
            Shape::RightOnly,
            Shape::LeftOnly,
            Shape::ZigZag,
        ]),
        red_once_in: random.pick(&[0, 1, 2, 2, 5]),
        rubbish_once_in: random.pick(&[0, 1, 2, 4]),
        scattered_entries: random.one_in(2),
        mixed_parts: random.one_in(2),
        order: random.pick(&[Order::Rising, Order::Falling, Order::Scattered, Order::Scattered]),
        mini_order: random.pick(&[Order::Rising, Order::Falling, Order::Scattered]),
        spare_directory: few(random, 4),
        spare_minis: few(random, 40),
        spare_mini_fat: few(random, 3),
        spare_fat: few(random, 3),
        free: few(random, 12),
        fill: random.pick(&[Fill::Noise, Fill::Noise, Fill::Byte(0), Fill::Byte(0xFF), Fill::Byte(1)]),
        ..Plan::of(g)
    }
}

/// 0 as often as not.
fn few(random: &mut Random, most: u32) -> u32 {
    if random.one_in(2) { 0 } else { random.between(1, most) }
}

/// Up to so many objects, with so many bytes for all large streams together.
fn objects(plan: &mut Plan, random: &mut Random, most: u32, mut room: u32) {
    let alphabet = random.pick(&Alphabet::ALL);
    let (streams, nesting) = (random.between(1, 5), random.below(4));
    let mut storages = vec![0];
    let mut taken = HashSet::new();
    for _ in 0..random.between(1, most) {
        let parent = match nesting {
            0 => 0,
            1 => *storages.last().unwrap(),
            _ => random.pick(&storages),
        };
        let name = names::random(random, alphabet);
        if !taken.insert((parent, names::key(&name))) {
            continue;
        }
        if random.below(6) < streams {
            let size = stream_size(random, plan.geometry, room);
            room -= size.min(room);
            plan.add(parent, name, Some(size));
        } else {
            storages.push(plan.add(parent, name, None));
        }
    }
}

/// Hardly an entry is blank: the directory's last sector is filled with storages and empty streams.
fn crowd(plan: &mut Plan, random: &mut Random) {
    let (alphabet, blanks) = (random.pick(&Alphabet::ALL), random.below(4) as usize);
    plan.spare_directory = 0;
    let all = plan.objects.iter().enumerate();
    let mut storages: Vec<usize> = all.filter(|(_, object)| object.size.is_none()).map(|(number, _)| number).collect();
    let mut taken: HashSet<_> = plan.objects.iter().map(|object| (object.parent, names::key(&object.name))).collect();
    while !(plan.objects.len() + blanks).is_multiple_of(plan.geometry.entries) {
        let (parent, name) = (random.pick(&storages), names::random(random, alphabet));
        if taken.insert((parent, names::key(&name))) {
            let size = if random.one_in(3) { None } else { Some(0) };
            let object = plan.add(parent, name, size);
            storages.extend(size.is_none().then_some(object));
        }
    }
}

/// A size near one of the lines, or any; small ones once there is no room.
fn stream_size(random: &mut Random, g: Geometry, room: u32) -> u32 {
    let sector = g.sector as u32;
    let more = CUTOFF as u32 + sector * random.between(1, 3);
    let size = match random.below(8) {
        0..2 => random.below(300),
        2..4 => random.below(12_000 + 2 * sector),
        4..7 => random.pick(&[0, 0, 1, 63, 64, 65, 128, 511, 512, 513, 4095, 4096, 4097, 5120, 5121, 8192]),
        _ => random.pick(&[more, more + 1]),
    };
    if size > room { random.below(130) } else { size }
}

/// Hardly anything but entries: the most of them that so many sectors can hold.
fn all_entries(plan: &mut Plan, random: &mut Random) {
    let (most, room) = (random.pick(&[8, 40, 300]), 0);
    objects(plan, random, most, room);
    for object in plan.objects.iter_mut().filter(|object| object.size.is_some()) {
        object.size = Some(0);
    }
    (plan.spare_minis, plan.spare_mini_fat, plan.spare_fat, plan.free) = (0, 0, 0, 0);
}

/// Hardly anything but mini sectors.
fn all_minis(plan: &mut Plan, random: &mut Random) {
    objects(plan, random, 4, 0);
    plan.spare_minis = random.between(200, 1_000);
    (plan.spare_directory, plan.spare_mini_fat, plan.spare_fat, plan.free) = (0, 0, 0, 0);
}

/// As many sectors as the FAT has cells.
fn full_fat(plan: &mut Plan, random: &mut Random) {
    objects(plan, random, 10, 12 << 10);
    plan.spare_fat = 0;
    plan.sectors = Some(plan.geometry.cells as u32 * if plan.geometry == V3 { random.between(1, 3) } else { 1 });
}

/// As many mini sectors as the mini FAT has cells; often the last are free, and so are the last entries.
fn full_mini_fat(plan: &mut Plan, random: &mut Random) {
    objects(plan, random, 10, 12 << 10);
    plan.spare_directory += 1;
    if random.one_in(2) {
        plan.scattered_entries = false;
        plan.mixed_parts = false;
        plan.mini_order = Order::Rising;
    }
    let needed: u32 = plan.objects.iter().filter_map(|object| object.size).map(units::minis_of).sum();
    let cells = plan.geometry.cells as u32;
    plan.spare_minis = needed.next_multiple_of(cells) - needed + cells * random.between(1, 2);
    plan.spare_mini_fat = 0;
}

/// More FAT sectors than the header has room for, most of them for cells that are not needed.
fn long_fat(plan: &mut Plan, random: &mut Random, from: u32, to: u32) {
    objects(plan, random, 12, 16 << 10);
    plan.spare_fat = random.between(from, to) - 1;
}
