//! One image timed: the library, the rival and the ordinary validator by turns, lent the same work buffers.

use super::times::{median, once};
use cfb_tests::bench::{Make, SIZES, Scale};
use cfb_tests::{library, rival, volume};
use std::time::Duration;

/// The medians in milliseconds, and the answers: of the library, the rival and the ordinary validator.
pub struct Row {
    pub name: String,
    due: u32,
    bytes: usize,
    pub times: [f64; 3],
    answers: [u32; 3],
    /// Whether the rival leaves the work buffer as it should.
    left_right: bool,
}

type Validate = fn(&[u8], &mut [u32]) -> u32;

/// What the validators are called in the tables.
pub const LIBRARY: usize = 0;
pub const RIVAL: usize = 1;
pub const ORDINARY: usize = 2;

/// The order of a round. What stands in the caches is what the one before left there, so library and rival take turns at coming
/// first: each follows the other and the ordinary one as often.
const ORDERS: [[usize; 3]; 2] = [[LIBRARY, RIVAL, ORDINARY], [RIVAL, LIBRARY, ORDINARY]];

/// Longer than this none is timed on one image.
const LIMIT: Duration = Duration::from_secs(10);

impl Row {
    /// As many copies in a row as fill 64 MiB, each with a work buffer of its own, so that a short image is no more likely to be
    /// in the processor's cache than a long one.
    pub fn new(make: &Make, scale: Scale, rounds: usize) -> Row {
        let image = (make.image)(scale);
        let (bytes, work) = (image.len(), vec![0; volume::work_needed(image.len())]);
        let left_right = rival::check(&image, work.len(), make.answer).is_ok();
        let mut copies = vec![(image, work); SIZES[1].times / scale.size.times];
        let validators: [Validate; 3] = [library::validate, rival::validate, ordinary];
        let (mut times, mut answers) = ([const { Vec::new() }; 3], [0; 3]);
        for round in 0..rounds {
            for validator in ORDERS[round % 2] {
                for (image, work) in &mut copies {
                    answers[validator] = once(&mut times[validator], || validators[validator](image, work));
                }
            }
            if times.iter().any(|times| times.iter().sum::<Duration>() > LIMIT) {
                break;
            }
        }
        Row { name: make.name(scale.size), due: make.answer, bytes, times: times.map(median), answers, left_right }
    }

    /// How long the library takes, the other being 1.
    pub fn ratio(&self, other: usize) -> f64 {
        self.times[LIBRARY] / self.times[other]
    }

    pub fn ns_per_byte(&self, validator: usize) -> f64 {
        self.times[validator] * 1e6 / self.bytes as f64
    }

    pub fn answer(&self) -> String {
        let Row { due, answers, .. } = self;
        if !self.left_right {
            return format!("{answers:?}, rival's work buffer wrong");
        }
        if self.wrong() { format!("{answers:?}, not {due}") } else { due.to_string() }
    }

    pub fn wrong(&self) -> bool {
        self.answers != [self.due; 3] || !self.left_right
    }

    pub fn good(&self) -> bool {
        self.due == 0
    }
}

/// It needs no work buffer, but leaves it as the others have to.
fn ordinary(image: &[u8], work: &mut [u32]) -> u32 {
    let answer = volume::validate(image, work.len());
    work.fill(0);
    answer
}
