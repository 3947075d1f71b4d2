//! Checks of the independent parts themselves: the papers' values, and plainer ways to the same answers.

mod calls;
mod cursor;
mod cutoff;
mod fresh;
mod groups;
mod objects;
mod plain_owners;
mod plain_siblings;
mod plain_tree;
mod pulse;
mod repair;
mod rival;
mod samples;
mod sizes;
mod versions;

use crate::geometry::{V3, VERSIONS};
use crate::images::letters::{self, IN_ORDER};
use crate::images::{Sample, names, names::Alphabet, plan::*};
use crate::number::*;
use crate::random::Random;
use crate::volume::{Volume, chains::Chains, entry::fold, tables::difat_needed, validate, work_needed};
use std::cmp::Ordering;
use std::collections::HashSet;

/// A path through the cells, unit by unit, that must end after exactly n.
fn plain_chain(cells: &[u32], start: u32, n: usize) -> bool {
    let mut at = start;
    for _ in 0..n {
        match cells.get(at as usize) {
            Some(&next) => at = next,
            None => return false,
        }
    }
    at == END
}

#[test]
fn chains_agree_with_plain_walks() {
    let mut random = Random::of(1, 1);
    for _ in 0..20_000 {
        let count = random.between(1, 9);
        let any = |random: &mut Random| {
            let below = random.below(count);
            random.pick(&[below, below, below, END, END, FREE, FATSECT, count])
        };
        let cells: Vec<u32> = (0..count).map(|_| any(&mut random)).collect();
        let chains = Chains::new(&cells);
        for start in (0..=count).chain([END, FREE, FATSECT]) {
            for n in 0..=count as usize + 1 {
                assert_eq!(chains.is_chain(start, n as u64), plain_chain(&cells, start, n), "{cells:?} {start} {n}");
            }
        }
    }
}

#[test]
fn difat_sectors_of_the_papers() {
    let needed = |fat| difat_needed(V3, fat);
    assert_eq!([109, 110, 236, 237].map(needed), [0, 1, 1, 2]);
    assert_eq!([998, 999, 1_024, 1_125, 1_126].map(needed), [7, 8, 8, 8, 9]);
}

#[test]
fn order_of_the_papers() {
    let order = |a: &str, b: &str| {
        let mut plan = Plan::bare();
        plan.add(0, names::of(a), Some(0));
        plan.add(0, names::of("between"), None);
        plan.add(2, names::of(b), Some(0));
        let sample = Sample::build(&plan, &mut Random::of(0, 0));
        let volume = Volume::open(&sample.image).expect("a valid image");
        volume.directory.entry(1).name_order(&volume.directory.entry(3))
    };
    assert_eq!(order("log", "Jets"), Ordering::Less);
    assert_eq!(order("Jets", "log"), Ordering::Greater);
    assert_eq!(order("LOG", "log"), Ordering::Equal);
    assert_eq!(order("a_b", "aab"), Ordering::Greater);
    assert_eq!(order("Œ", "ÿ"), Ordering::Less);
    assert_eq!(order("ŸрЁ", "ÿРё"), Ordering::Equal);
    assert_eq!(order("ς", "σ"), Ordering::Greater);
}

/// W-211 at each end of each range, at what is left out, and beside those.
#[test]
fn folding_of_the_papers() {
    let folded = [
        (0x61, 0x41),
        (0x7A, 0x5A),
        (0xE0, 0xC0),
        (0xF6, 0xD6),
        (0xF8, 0xD8),
        (0xFE, 0xDE),
        (0xFF, 0x178),
        (0x3B1, 0x391),
        (0x3C1, 0x3A1),
        (0x3C3, 0x3A3),
        (0x3C9, 0x3A9),
        (0x430, 0x410),
        (0x44F, 0x42F),
        (0x450, 0x400),
        (0x45F, 0x40F),
    ];
    for (small, capital) in folded {
        assert_eq!((fold(small), fold(capital)), (capital, capital), "{small:04X}");
    }
    assert_eq!(letters::ends().collect::<HashSet<_>>(), HashSet::from(folded));
    let kept = [0, 0x60, 0x7B, 0xDF, 0xF7, 0x100, 0x177, 0x179, 0x3B0, 0x3C2, 0x3CA, 0x3FF, 0x42F, 0x460, 0xFFFF];
    assert_eq!(kept.map(fold), kept);
}

/// The plain table of pairs, and Unicode's capitals: a folded unit is the only one that Unicode gives.
#[test]
fn folding_of_every_unit() {
    let changed = (0..=u16::MAX).filter(|&unit| fold(unit) != unit);
    assert_eq!(changed.clone().count(), 26 + 30 + 1 + 24 + 32 + 16);
    for unit in changed {
        let letter = char::from_u32(unit as u32).expect("no surrogate");
        let capital = char::from_u32(fold(unit) as u32).expect("no surrogate");
        assert!(letter.to_uppercase().eq([capital]), "{unit:04X}");
    }
    let mut alike = vec![Vec::new(); 0x1_0000];
    for unit in 0..=u16::MAX {
        assert_eq!((fold(unit), fold(fold(unit))), (letters::capital(unit), fold(unit)), "{unit:04X}");
        alike[fold(unit) as usize].push(unit);
    }
    for unit in 0..=u16::MAX {
        let others: Vec<u16> = alike[fold(unit) as usize].iter().copied().filter(|&other| other != unit).collect();
        assert_eq!(others, letters::other_case(unit).into_iter().collect::<Vec<u16>>(), "{unit:04X}");
    }
}

/// Names of units below 00E0 are in the order of 01, which folds a-z alone.
#[test]
fn folding_below_the_first_new_letter() {
    for unit in 0..0xE0u8 {
        assert_eq!(fold(unit as u16), unit.to_ascii_uppercase() as u16);
    }
}

/// Units that are refused occur in no random name, those beside `!` do.
#[test]
fn names_of_random_images() {
    let mut random = Random::of(5, 0);
    let alphabets = Alphabet::ALL.into_iter().cycle().take(40_000);
    let units: HashSet<u16> = alphabets.flat_map(|alphabet| names::random(&mut random, alphabet)).collect();
    for unit in [0, 0x21, 0x2F, 0x3A, 0x5C] {
        assert!(!units.contains(&unit), "{unit}");
    }
    assert!(units.contains(&0x20) && units.contains(&0x22));
    let northern = IN_ORDER.into_iter().chain(letters::pairs().flat_map(|(small, capital)| [small, capital]));
    for unit in northern {
        assert!(units.contains(&unit), "{unit:04X}");
    }
}

#[test]
fn lengths_of_the_papers() {
    let image = Sample::build(&Plan::bare(), &mut Random::of(0, 0)).image;
    assert_eq!(image.len(), 1_536);
    assert_eq!(work_needed(1_536), 39);
    assert_eq!(validate(&image, 39), 0);
    assert_eq!(validate(&image, 38), 2);
    assert_eq!(validate(&image[..1_535], 39), 1);
    let allowed = |length| V3.length_allowed(length);
    assert_eq!([1_536, 8_388_608, 8_389_120, 67_108_864].map(allowed), [true; 4]);
    assert_eq!([1_024, 8_388_609, 67_108_863, 67_109_376].map(allowed), [false; 4]);
    let plan = Plan { sectors: Some(131_071), ..Plan::bare() };
    let layout = Sample::build(&plan, &mut Random::of(0, 0)).layout;
    assert_eq!((layout.fat.len(), layout.difat.len()), (1_024, 8));
}

/// Any bytes behind a header that holds get an answer.
#[test]
fn noise_is_answered() {
    for number in 0..20_000 {
        let mut random = Random::of(2, number);
        let g = VERSIONS[(number % 8 == 0) as usize];
        let mut image = Sample::build(&Plan::of(g), &mut random).image;
        image.resize(g.sector * random.between(3, 12) as usize, 0);
        let words = [0, 1, 2, 3, FREE, END, FATSECT, DIFSECT, 0x0005_0000];
        for at in (g.sector..image.len()).step_by(4) {
            put_u32(&mut image, at, random.pick(&words));
        }
        let answer = validate(&image, work_needed(image.len()));
        assert!((11..=18).contains(&answer) || answer == 0);
    }
}
