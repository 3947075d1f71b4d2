//! Plans that are picked for a size, against every plan that there is.

use gyomrelas::{format, Plan, Refusal};

/// For each version the bytes of a sector.
const VERSIONS: [(u32, u64); 2] = [(3, 512), (4, 4096)];

/// What a format answers, from the papers: by true sums and products.
fn answer(bytes: usize, plan: &Plan) -> u32 {
    let sector: u128 = if plan.version == 4 { 4096 } else { 512 };
    let bytes = bytes as u128;
    let numbers = [plan.sectors, plan.directory_sectors, plan.mini_fat_sectors, plan.mini_sectors];
    let [sectors, directory, mini_fat, minis] = numbers.map(u128::from);
    if !bytes.is_multiple_of(sector) || bytes < 3 * sector || bytes > 67_108_864 || bytes != sector * (sectors + 1) {
        return 1;
    }
    let fat = (1..).find(|fat| fat * sector / 4 >= sectors).expect("few sectors");
    let difat = (0..).find(|difat| 109 + difat * (sector / 4 - 1) >= fat).expect("few sectors");
    let parts = fat + difat + directory + mini_fat + (64 * minis).div_ceil(sector);
    let fits = directory > 0 && minis <= mini_fat * sector / 4 && parts <= sectors;
    if fits && [3, 4].contains(&plan.version) {
        0
    } else {
        32
    }
}

/// For each number of streams and bytes the most mini sectors that they can take: the first stream has any length below
/// 4,096, the others the rest.
fn most_mini_sectors(streams: usize, bytes: usize) -> Vec<Vec<u64>> {
    let mut most = vec![vec![0; bytes + 1]];
    for others in 0..streams {
        let next = (0..=bytes)
            .map(|bytes| {
                let first = 0..=bytes.min(4095);
                first.map(|length| length.div_ceil(64) as u64 + most[others][bytes - length]).max().unwrap_or(0)
            })
            .collect();
        most.push(next);
    }
    most
}

#[test]
fn small_streams_have_room_however_they_are_spread() {
    let most = most_mini_sectors(4, 300);
    for (objects, row) in most.iter().enumerate() {
        for (bytes, &due) in row.iter().enumerate() {
            let plan = Plan::for_size(3, 65_536, objects as u64, bytes as u64).expect("there is room");
            assert_eq!(plan.mini_sectors, due, "{objects} {bytes}");
        }
    }
    // no stream has more than 64
    let most = most_mini_sectors(2, 8_300);
    for (objects, bytes) in [(1, 4_031), (1, 4_033), (1, 8_300), (2, 4_096), (2, 8_065), (2, 8_066), (2, 8_300)] {
        let plan = Plan::for_size(4, 1 << 20, objects as u64, bytes as u64).expect("there is room");
        assert_eq!(plan.mini_sectors, most[objects][bytes], "{objects} {bytes}");
    }
}

/// For each number of directory sectors the most mini sectors of a plan that is not refused.
fn largest_plans(version: u32, sector: u64, sectors: u64) -> Vec<Option<u64>> {
    let bytes = (sector * (sectors + 1)) as usize;
    let most = |directory_sectors| {
        let numbers =
            (0..=sectors).flat_map(|mini_fat| (0..=sectors * sector / 64).map(move |minis| (mini_fat, minis)));
        let plans = numbers.map(|(mini_fat_sectors, mini_sectors)| Plan {
            version,
            sectors,
            directory_sectors,
            mini_fat_sectors,
            mini_sectors,
        });
        plans.filter(|plan| answer(bytes, plan) == 0).map(|plan| plan.mini_sectors).max()
    };
    (0..=sectors).map(most).collect()
}

/// Every size that some plan has room for is had by the one that is picked.
#[test]
fn what_can_be_had_is_picked() {
    for ((version, sector), longest) in VERSIONS.into_iter().zip([24, 6]) {
        let entries = sector / 128;
        let mut picked = [0, 0];
        for sectors in 2..=longest {
            let bytes = (sector * (sectors + 1)) as usize;
            let largest = largest_plans(version, sector, sectors);
            for objects in 0..=entries * (sectors + 1) {
                for small_bytes in (0..=(sectors + 1) * sector).step_by(101) {
                    let plan = Plan::for_size(version, bytes, objects, small_bytes);
                    // the longest image has room for any of these
                    let needed = Plan::for_size(4, 1 << 26, objects, small_bytes).expect("room").mini_sectors;
                    let has_room = |(directory, most): (u64, &Option<u64>)| {
                        directory * entries > objects && most.is_some_and(|most| most >= needed)
                    };
                    let can_be_had = (0..).zip(&largest).any(has_room);
                    picked[can_be_had as usize] += 1;
                    let case = format!("{version} {sectors} {objects} {small_bytes}");
                    match plan {
                        Ok(plan) => {
                            assert!(can_be_had && answer(bytes, &plan) == 0, "{case}");
                            assert!(
                                plan.directory_sectors * entries > objects && plan.mini_sectors >= needed,
                                "{case}"
                            );
                        }
                        Err(refusal) => assert!(!can_be_had && refusal == Refusal::PlanDoesNotFit, "{case}"),
                    }
                }
            }
        }
        assert!(picked[0] > 1_000 && picked[1] > 1_000, "{picked:?}");
    }
}

/// Lengths that a version has or has not, an unknown version, and numbers near 2^64.
#[test]
fn refusals_are_those_of_a_format() {
    let lengths =
        [0, 1, 511, 1_024, 1_535, 1_536, 1_537, 8_192, 12_287, 12_288, 12_800, 67_108_352, 67_108_864, 67_112_960];
    for bytes in lengths {
        for version in [0, 2, 3, 4, 5, u32::MAX] {
            for objects in [0, 1, 3, 4, 100, 1 << 20, u64::MAX - 1, u64::MAX] {
                for small_bytes in [0, 1, 64, 4_096, 1 << 26, 1 << 58, u64::MAX - 63, u64::MAX] {
                    let sector = if version == 4 { 4096 } else { 512 };
                    let sectors = (bytes as u64 / sector).saturating_sub(1);
                    let least = Plan { version, sectors, directory_sectors: 1, mini_fat_sectors: 0, mini_sectors: 0 };
                    let due = answer(bytes, &least);
                    match Plan::for_size(version, bytes, objects, small_bytes) {
                        Ok(plan) => assert_eq!((due, answer(bytes, &plan)), (0, 0)),
                        Err(refusal) => assert!([due, 32].contains(&refusal.number()), "{bytes} {version} {refusal}"),
                    }
                }
            }
        }
    }
}

/// The free sectors of a plan, and that the library answers as the papers do.
#[test]
fn the_library_carries_out_what_is_picked() {
    for (version, sector) in VERSIONS {
        for sectors in (2..40).chain([127, 128, 129, 1_023, 1_024, 1_025, 13_952, 13_953]) {
            let bytes = (sector * (sectors + 1)) as usize;
            if bytes > 8 << 20 {
                continue;
            }
            for (objects, small_bytes) in [(0, 0), (1, 1), (3, 500), (4, 0), (40, 9_000), (500, 100_000)] {
                let Ok(plan) = Plan::for_size(version, bytes, objects, small_bytes) else { continue };
                assert_eq!(format(&mut vec![0xA5; bytes], plan), Ok(()), "{plan:?}");
                let free = plan.free_sectors().expect("it was carried out");
                let full = Plan { directory_sectors: plan.directory_sectors + free, ..plan };
                assert_eq!((full.free_sectors(), format(&mut vec![0xA5; bytes], full)), (Some(0), Ok(())));
                let more = Plan { directory_sectors: full.directory_sectors + 1, ..plan };
                assert_eq!(more.free_sectors(), None);
                assert_eq!(format(&mut vec![0xA5; bytes], more), Err(Refusal::PlanDoesNotFit));
            }
        }
    }
}
