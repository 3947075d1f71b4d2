//! Fresh images (W-209): what is asked for on each side of the lines that the papers draw, each reason for 1 and for 32.

use super::fixed::of_sectors;
use super::large::MIB_64;
use super::{Case, fresh_lists};
use crate::calls::Call;
use crate::calls::format::Fresh;
use crate::draw::fresh::UNKNOWN;
use crate::geometry::{Geometry, V3, V4};
use crate::random::Random;
use crate::volume::tables::difat_needed;

/// One after the other, since some are long.
pub fn run(g: Geometry, next: &mut dyn FnMut(Case)) {
    smallest(g, next);
    mini_sectors(g, next);
    tables(g, next);
    longest(g, next);
    other_lengths(g, next);
    other_counts(g, next);
    refused_parts(g, next);
    beyond_64_bits(g, next);
    fresh_lists::cases(g).into_iter().for_each(next);
}

pub fn asked(g: Geometry, sectors: u64, directory: u64, mini_fat: u64, minis: u64) -> Fresh {
    Fresh { version: g.major as u32, sectors, directory, mini_fat, minis }
}

pub fn noise(bytes: usize) -> Vec<u8> {
    let mut buffer = vec![0; bytes];
    Random::of(5, bytes as u64).fill(&mut buffer);
    buffer
}

fn in_buffer(buffer: Vec<u8>, asked: Fresh, expected: u32) -> Case {
    Case { call: Call::Format(asked), ..Case::new("fresh", buffer, 0, Some(expected)) }
}

/// In a buffer full of noise, whose length is that of N sectors.
fn of(asked: Fresh, expected: u32) -> Case {
    in_buffer(noise(asked.geometry().image_len(asked.sectors as u32)), asked, expected)
}

/// The header, a FAT sector and a directory sector; in buffers of all kinds, also in one that is a valid image.
fn smallest(g: Geometry, next: &mut dyn FnMut(Case)) {
    let least = asked(g, 2, 1, 0, 0);
    next(of(least, 0));
    for buffer in [vec![0; g.least_image], vec![0xFF; g.least_image], of_sectors(g, 2)] {
        next(in_buffer(buffer, least, 0));
    }
    // There is no room for anything else.
    for (directory, mini_fat, minis) in [(2, 0, 0), (1, 1, 0), (1, 1, 1), (0, 1, 0), (0, 0, 0), (1, 0, 1)] {
        next(of(asked(g, 2, directory, mini_fat, minis), 32));
    }
}

/// None with a mini FAT and without; all cells of it and one more; the last sector of the mini stream filled or not. With as many
/// sectors as that takes, more, and one too few.
fn mini_sectors(g: Geometry, next: &mut dyn FnMut(Case)) {
    let (in_sector, cells) = (g.minis as u64, g.cells as u64);
    for minis in [0, 1, 2, in_sector - 1, in_sector, in_sector + 1, cells - 1, cells, cells + 1, 2 * cells] {
        for mini_fat in 0..=3 {
            let enough = minis <= cells * mini_fat;
            for directory in [1, 2, 5] {
                let parts = 1 + directory + mini_fat + minis.div_ceil(in_sector);
                for (sectors, fits) in [(parts - 1, false), (parts, true), (parts + 1, true), (parts + 20, true)] {
                    let answer = if enough && fits { 0 } else { 32 };
                    if sectors > 1 {
                        next(of(asked(g, sectors, directory, mini_fat, minis), answer));
                    }
                }
            }
        }
    }
}

/// As many sectors as some FAT sectors have cells, and one more. In version 3 the papers' lines of the DIFAT are among them; in version
/// 4 the longest image has 16 FAT sectors, and none.
fn tables(g: Geometry, next: &mut dyn FnMut(Case)) {
    let fat: &[u64] = if g == V3 { &[1, 2, 108, 109, 110, 235, 236, 237] } else { &[1, 2, 15] };
    for (sectors, fat) in fat.iter().flat_map(|&fat| [(fat * g.cells as u64, fat), (fat * g.cells as u64 + 1, fat + 1)])
    {
        let left = sectors - fat - difat_needed(g, fat);
        for (directory, mini_fat, minis) in [(1, 0, 0), (3, 2, 200), (left, 0, 0), (1, left - 1, 0)] {
            next(of(asked(g, sectors, directory, mini_fat, minis), 0));
        }
        next(of(asked(g, sectors, left + 1, 0, 0), 32));
        next(of(asked(g, sectors, 1, left, 0), 32));
    }
}

fn longest(g: Geometry, next: &mut dyn FnMut(Case)) {
    let sectors = g.count(MIB_64) as u64;
    let fat = sectors.div_ceil(g.cells as u64);
    let left = sectors - fat - difat_needed(g, fat);
    // As many mini sectors as can be, and a directory of one sector.
    let mini_fat = (left - 1).div_ceil(1 + (g.cells / g.minis) as u64);
    let minis = (left - 1 - mini_fat) * g.minis as u64;
    for (directory, mini_fat, minis) in [(1, 0, 0), (left, 0, 0), (1, mini_fat, minis)] {
        next(of(asked(g, sectors, directory, mini_fat, minis), 0));
    }
    next(of(asked(g, sectors, 2, mini_fat, minis), 32));
    next(of(asked(g, sectors + 1, 1, 0, 0), 1));
}

/// Lengths that the version does not have, with any N that could go with them. An unknown version has those of version 3.
fn other_lengths(g: Geometry, next: &mut dyn FnMut(Case)) {
    let of_neither = [0, 1, 511, 512, 513, 1_024, 1_535, 1_537, 12_287, 12_289, 67_108_353, 67_108_865];
    let of_3 = [1_536, 4_096, 8_192, 8_704, 12_800, 61_952];
    let more: &[usize] = if g == V3 { &[] } else { &of_3 };
    for &length in of_neither.iter().chain(more) {
        let sectors = length as u64 / g.sector as u64;
        for sectors in [sectors, sectors.wrapping_sub(1), sectors.saturating_sub(2), 0, 2] {
            next(in_buffer(noise(length), asked(g, sectors, 1, 0, 0), 1));
        }
        // 1 comes before 32.
        next(in_buffer(noise(length), asked(g, sectors.wrapping_sub(1), 0, 0, 1), 1));
    }
    for version in UNKNOWN {
        let unknown = |sectors| Fresh { version, ..asked(V3, sectors, 1, 0, 0) };
        for (length, sectors, answer) in
            [(1_536, 2, 32), (12_288, 23, 32), (12_288, 2, 1), (12_800, 24, 32), (1_024, 1, 1), (1_537, 2, 1)]
        {
            next(in_buffer(noise(length), unknown(sectors), answer));
        }
    }
}

/// N that is not the buffer's, in one case by 2^64 bytes.
fn other_counts(g: Geometry, next: &mut dyn FnMut(Case)) {
    for sectors in [2, 3, 20] {
        let wraps = sectors + (1 << (64 - g.shift));
        let near = [0, sectors - 1, sectors + 1, sectors + 2];
        let far = [wraps, sectors + (1 << 32), sectors + (1 << 63), u64::MAX, u64::MAX - 1, u64::MAX - sectors];
        for other in near.into_iter().chain(far) {
            next(in_buffer(noise(g.image_len(sectors as u32)), asked(g, other, 1, 0, 0), 1));
            next(in_buffer(noise(g.image_len(sectors as u32)), asked(g, other, 0, 1, 9_999), 1));
        }
    }
    // The same buffer has another N in the other version.
    let other = if g == V3 { V4 } else { V3 };
    next(in_buffer(noise(61_440), asked(g, other.count(61_440) as u64, 1, 0, 0), 1));
}

/// Each reason by itself, and all at once.
fn refused_parts(g: Geometry, next: &mut dyn FnMut(Case)) {
    let (sectors, cells) = (40, g.cells as u64);
    next(of(asked(g, sectors, 4, 1, 20), 0));
    next(of(asked(g, sectors, 0, 1, 20), 32));
    for version in UNKNOWN {
        let length = V3.image_len(sectors as u32);
        next(in_buffer(noise(length), Fresh { version, ..asked(V3, sectors, 4, 1, 20) }, 32));
        next(in_buffer(noise(length), Fresh { version, ..asked(V3, sectors, 0, 0, 20) }, 32));
    }
    for (mini_fat, minis) in [(0, 1), (0, 20), (1, cells + 1), (2, 2 * cells + 1), (1, u64::MAX)] {
        next(of(asked(g, sectors, 4, mini_fat, minis), 32));
    }
    for (directory, mini_fat, minis) in [(39, 1, 0), (1, 39, 0), (36, 2, g.minis as u64 + 1), (sectors, 0, 0)] {
        next(of(asked(g, sectors, directory, mini_fat, minis), 32));
    }
}

/// Sums and products that are small in 64 bits, and numbers that are small in 32.
fn beyond_64_bits(g: Geometry, next: &mut dyn FnMut(Case)) {
    let last = u64::MAX;
    let of_cells = 1 << (66 - g.shift);
    let with_directory = [1 << 32, (1 << 32) + 1, 1 << 63, last, last - 1, last - 2, last - 40].map(|a| [a, 1, 20]);
    let with_mini_fat =
        [1 << 32, (1 << 32) + 1, of_cells, of_cells + 1, 1 << 63, last, last - 1, last - 3].map(|m| [1, m, 20]);
    let with_minis = [1 << 32, (1 << 32) + 20, 1 << 58, (1 << 58) + 20, 1 << 63, last, last - 63].map(|k| [1, 1, k]);
    let with_some = [
        [last, 2, 0],
        [last - 1, 2, 0],
        [last - 3, 4, 0],
        [1 << 63, 1 << 63, 0],
        [1 << 62, 3 << 62, 20],
        [1, 1 << 58, 1 << 58],
        [1, last, last],
        [last, last, last],
        [1, of_cells, 1],
        [1, of_cells + 1, 20],
        [1, 1 << 51, (1 << 58) + 20],
    ];
    for [directory, mini_fat, minis] in
        with_directory.into_iter().chain(with_mini_fat).chain(with_minis).chain(with_some)
    {
        next(of(asked(g, 40, directory, mini_fat, minis), 32));
    }
}
