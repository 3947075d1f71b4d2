//! The library, compared with what a call should do.

mod functions;
mod lent;
#[cfg(feature = "edits")]
mod opened;
#[cfg(feature = "edits")]
mod opened_functions;
mod values;

pub use functions::{call, validate};
#[cfg(feature = "edits")]
pub use opened::{Opened, check_once};
#[cfg(feature = "edits")]
pub use opened_functions::{Volume, close, open, opened_call};

use crate::calls::Outcome;
use crate::cases::Case;
use crate::compare::After;
use crate::random::Random;
use crate::volume::work_needed;
use lent::Lent;

/// Calls the library with copies of the buffers at any alignment, the work buffer full of noise. The error says what is
/// not as the papers promise: the answer and the values, the out buffer, the image after the call, the work buffer.
pub fn check(case: &Case, due: &After) -> Result<(), String> {
    let mut noise = noise(case.image.len(), case.work_len);
    let given = case.call.clone();
    let first_work = some_words(case.work_len, &mut noise);
    let mut image = Lent::new(&case.image, noise.index(16), || noise.byte());
    let mut work = Lent::new(&first_work, 16, || noise.word());
    let mut out = Lent::new(case.call.out(), noise.index(16), || noise.byte());
    let Some(done) = functions::call(&given, image.part(), work.part(), out.part()) else { return Ok(()) };
    let work_after = match case.call.has_work() {
        true => work_after(first_work, case.image.len(), due.outcome.answer),
        false => first_work,
    };
    let buffers = [
        ("path or bytes", given == case.call),
        ("image", image.holds(&due.image)),
        ("work buffer", work.holds(&work_after)),
        ("out buffer", out.holds(&due.outcome.out)),
    ];
    judge(done, &due.outcome, &buffers)
}

/// Noise for the buffers lent with an image and a work buffer of these lengths.
fn noise(image_len: usize, work_len: usize) -> Random {
    Random::of(image_len as u64, work_len as u64)
}

/// A work buffer full of noise, of which no number is zero.
fn some_words(len: usize, noise: &mut Random) -> Vec<u32> {
    (0..len).map(|_| noise.word() | 1).collect()
}

/// Untouched after 1 and 2; else the first W numbers are zero.
fn work_after(mut work: Vec<u32>, image_len: usize, answer: u32) -> Vec<u32> {
    if answer != 1 && answer != 2 {
        work[..work_needed(image_len)].fill(0);
    }
    work
}

/// Whether the library gave the answer and the values that are due, and each buffer holds what it should.
fn judge((answer, values): (u32, [u64; 3]), due: &Outcome, buffers: &[(&'static str, bool)]) -> Result<(), String> {
    if answer != due.answer {
        return Err(format!("library {answer}, independent {}", due.answer));
    }
    if let Some((buffer, _)) = buffers.iter().find(|(_, right)| !right) {
        return Err(format!("{buffer} wrong (answer {answer})"));
    }
    if values != due.values {
        return Err(format!("library's values {values:?}, independent {:?}", due.values));
    }
    Ok(())
}
