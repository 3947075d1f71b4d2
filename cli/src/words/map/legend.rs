//! What the marks mean: a line for each part that has sectors, and for what has no owner or two.

use super::Map;
use super::marks::{self, Mark};
use crate::reader::number::{CUTOFF, MINI_SECTOR, counted};
use crate::reader::survey::Use;

/// So many small streams have a line of their own.
const MOST_SMALL: usize = 100;
/// So many runs of shared sectors are told.
const MOST_RUNS: usize = 20;

pub struct Line {
    pub mark: Mark,
    pub sectors: u64,
    pub text: String,
}

/// The lines of the legend: the header first, then the parts, the first of them one by one, then free, unowned and
/// shared sectors.
pub fn lines(map: &Map, most: usize) -> Vec<Line> {
    let mut lines = vec![Line { mark: marks::HEADER, sectors: 1, text: "header".into() }];
    let parts = map.survey.parts.iter().enumerate().filter(|(_, part)| part.sectors > 0);
    for (number, part) in parts.clone().take(most) {
        lines.push(Line { mark: map.marks[number], sectors: part.sectors, text: map.part_title(number) });
    }
    let rest: Vec<u64> = parts.skip(most).map(|(_, part)| part.sectors).collect();
    if !rest.is_empty() {
        let mark = Mark { letter: '+', ..marks::HEADER };
        let text = format!("and {} more", counted(rest.len() as u64, "stream"));
        lines.push(Line { mark, sectors: rest.iter().sum(), text });
    }
    lines.extend(others(map));
    lines
}

/// The sectors that no part has, or two.
fn others(map: &Map) -> impl Iterator<Item = Line> {
    let free = map.survey.count(|used| used == Use::Free);
    let unowned = map.survey.count(|used| used == Use::Unowned);
    let shared = map.survey.count(|used| matches!(used, Use::Shared(..)));
    let lines = [
        Line { mark: marks::FREE, sectors: free, text: "free".into() },
        Line { mark: marks::UNOWNED, sectors: unowned, text: "unowned, and not free".into() },
        Line { mark: marks::SHARED, sectors: shared, text: "shared: two owners".into() },
    ];
    lines.into_iter().filter(|line| line.sectors > 0)
}

/// The shared sectors, by runs that have the same owners.
pub fn shared(map: &Map) -> Vec<String> {
    let mut runs: Vec<String> = Vec::new();
    let (mut at, mut more) = (0, 0);
    for run in map.survey.uses.chunk_by(|first, second| first == second) {
        if let Use::Shared(first, second) = run[0] {
            if runs.len() < MOST_RUNS {
                let (first, second) = (map.part_title(first), map.part_title(second));
                runs.push(format!("{}: {first} and {second}", range(at, run.len())));
            } else {
                more += 1;
            }
        }
        at += run.len();
    }
    if more > 0 {
        runs.push(format!("and {more} more"));
    }
    runs
}

/// As in "sector 3" or "sectors 3 to 7".
pub fn range(first: usize, count: usize) -> String {
    match count {
        1 => format!("sector {first}"),
        _ => format!("sectors {first} to {}", first + count - 1),
    }
}

/// The streams that lie in the mini stream.
pub fn small(map: &Map) -> Vec<String> {
    let small = |size: u64| (1..CUTOFF).contains(&size);
    let mut streams = map.volume.streams().filter(|stream| small(stream.size()));
    let mut lines: Vec<String> = Vec::new();
    for stream in streams.by_ref().take(MOST_SMALL) {
        let minis = counted(stream.size().div_ceil(MINI_SECTOR), "mini sector");
        lines.push(format!("{}: {} in {minis}", map.paths.path(&map.volume, &stream), counted(stream.size(), "byte")));
    }
    match streams.count() {
        0 => {}
        more => lines.push(format!("and {more} more")),
    }
    lines
}
