//! The rival compared with the answer that is due, and with what it has to leave in the work buffer.

use super::validate;
use crate::random::Random;
use crate::volume::work_needed;

/// So many numbers behind the work buffer must stay as they are.
const MARGIN: usize = 16;

/// Lends the rival a work buffer of this length, full of noise. The error says what is wrong.
pub fn check(image: &[u8], work_len: usize, due: u32) -> Result<(), String> {
    let mut noise = Random::of(work_len as u64, image.len() as u64);
    // No number is zero, and most look like no cell, mark or link of this image.
    let first: Vec<u32> = (0..work_len + MARGIN).map(|_| noise.word() | 1).collect();
    let mut work = first.clone();
    let answer = validate(image, &mut work[..work_len]);
    if answer != due {
        return Err(format!("rival {answer}, independent {due}"));
    }
    let zero = if answer == 1 || answer == 2 { 0 } else { work_needed(image.len()) };
    let left = work[..zero].iter().all(|&number| number == 0) && work[zero..] == first[zero..];
    if left { Ok(()) } else { Err(format!("work buffer of the rival wrong (answer {answer})")) }
}
