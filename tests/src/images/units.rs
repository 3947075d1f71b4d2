//! Which sectors and mini sectors each part of an image gets.

use super::plan::{Order, Plan};
use crate::geometry::Geometry;
use crate::number::*;
use crate::random::Random;

/// The numbers below count in the order in which they are handed out.
pub fn ordered(count: u32, order: Order, random: &mut Random) -> Vec<u32> {
    let mut units: Vec<u32> = (0..count).collect();
    match order {
        Order::Rising => {}
        Order::Falling => units.reverse(),
        Order::Scattered => random.shuffle(&mut units),
    }
    units
}

/// Hands runs of units to parts of these sizes. The parts take their turn in order, or by chance.
pub fn hand_out(units: &[u32], sizes: &[u32], mixed: bool, random: &mut Random) -> Vec<Vec<u32>> {
    let mut turns: Vec<usize> = (0..sizes.len()).collect();
    if mixed {
        random.shuffle(&mut turns);
    }
    let mut parts = vec![Vec::new(); sizes.len()];
    let mut from = 0;
    for turn in turns {
        let to = from + sizes[turn] as usize;
        parts[turn] = units[from..to].to_vec();
        from = to;
    }
    parts
}

pub fn minis_of(size: u32) -> u32 {
    if (size as u64) < CUTOFF { size.div_ceil(MINI_SECTOR as u32) } else { 0 }
}

pub fn sectors_of(g: Geometry, size: u32) -> u32 {
    if (size as u64) < CUTOFF { 0 } else { size.div_ceil(g.sector as u32) }
}

/// The number of sectors of each part.
pub struct Counts {
    pub sectors: u32,
    pub fat: u32,
    pub difat: u32,
    pub directory: u32,
    pub mini_fat: u32,
    pub mini_stream: u32,
    pub minis: u32,
    pub free: u32,
}

impl Counts {
    pub fn new(plan: &Plan) -> Counts {
        let g = plan.geometry;
        let sizes = || plan.objects.iter().filter_map(|object| object.size);
        let directory = (plan.objects.len() as u32).div_ceil(g.entries as u32) + plan.spare_directory;
        let minis = sizes().map(minis_of).sum::<u32>() + plan.spare_minis;
        let mini_fat = minis.div_ceil(g.cells as u32) + plan.spare_mini_fat;
        let mini_stream = minis.div_ceil(g.minis as u32);
        let held = directory + mini_fat + mini_stream + sizes().map(|size| sectors_of(g, size)).sum::<u32>();
        let (fat, free) = match plan.sectors {
            None => (fat_for(g, held + plan.free, plan.spare_fat), plan.free),
            Some(sectors) => {
                let fat = sectors.div_ceil(g.cells as u32) + plan.spare_fat;
                (fat, sectors - held - fat - difat_for(g, fat))
            }
        };
        let difat = difat_for(g, fat);
        let sectors = held + free + fat + difat;
        Counts { sectors, fat, difat, directory, mini_fat, mini_stream, minis, free }
    }
}

/// The fewest FAT sectors, and the spare ones, that cover so many other sectors and the tables themselves.
fn fat_for(g: Geometry, others: u32, spare: u32) -> u32 {
    let covers = |fat: u32| g.cells as u32 * fat >= others + fat + difat_for(g, fat);
    (1 + spare..).find(|&fat| covers(fat)).unwrap()
}

/// The fewest DIFAT sectors that hold what the header does not.
fn difat_for(g: Geometry, fat: u32) -> u32 {
    (0..).find(|&difat| (HEADER_DIFAT + g.difat * difat as usize) >= fat as usize).unwrap()
}
