//! Group 18 in the plainest way: every owner's units in one list, sorted.

use crate::breaks;
use crate::cases::mutate;
use crate::images::Sample;
use crate::number::{CUTOFF, FREE};
use crate::random::Random;
use crate::volume::{Volume, chains::Chains, entry::STREAM, length_allowed, owners};

/// No unit twice, and those that are missing have free cells.
fn all_owned_once(mut owned: Vec<u32>, chains: &Chains) -> bool {
    let count = owned.len();
    owned.sort();
    owned.dedup();
    let missing = |unit: &u32| owned.binary_search(unit).is_err();
    owned.len() == count
        && (0..chains.cells.len() as u32).filter(missing).all(|unit| chains.cells[unit as usize] == FREE)
}

fn plain(volume: &Volume) -> bool {
    let parts =
        [&volume.tables.fat, &volume.tables.difat, &volume.directory.sectors, &volume.mini.fat, &volume.mini.stream];
    let mut sectors: Vec<u32> = parts.into_iter().flatten().copied().collect();
    let mut minis = Vec::new();
    for stream in volume.directory.entries().filter(|entry| entry.kind() == STREAM) {
        match stream.size() < CUTOFF {
            true => minis.extend(volume.mini.chains.units(stream.start())),
            false => sectors.extend(volume.sectors.units(stream.start())),
        }
    }
    all_owned_once(sectors, &volume.sectors) && all_owned_once(minis, &volume.mini.chains)
}

#[test]
fn owners_agree_with_plain_lists() {
    let breaks: Vec<_> = breaks::all().into_iter().filter(|b| b.expected == 18 || b.expected == 0).collect();
    let (mut held, mut broken) = (0, 0);
    for number in 0..4_000 {
        let mut random = Random::of(4, number);
        let mut sample = Sample::random(&mut random);
        match number % 3 {
            0 => drop(mutate::mutate(&mut sample, &mut random)),
            _ => drop(random.pick(&breaks).apply(&mut sample, &mut random)),
        }
        if !length_allowed(&sample.image) {
            continue;
        }
        if let Ok(volume) = Volume::parse(&sample.image) {
            let holds = owners::hold(&volume);
            assert_eq!(holds, plain(&volume), "image {number}");
            if holds { held += 1 } else { broken += 1 }
        }
    }
    assert!(held > 300 && broken > 300, "{held} {broken}");
}
