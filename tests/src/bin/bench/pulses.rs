//! A long pulse stream summed up, against one validation of its image and one plain read of all its bytes.

use super::times::{median, once};
use cfb_tests::bench::pulses::{Made, RECORDS, length, makes, path};
use cfb_tests::calls::Call;
use cfb_tests::library;
use cfb_tests::volume::work_needed;

const ROUNDS: usize = 7;
/// A summary takes at most so many times what the other two take together.
const LIMIT: f64 = 3.0;

/// Prints it; in how many rows an answer or a value is wrong, or the summary takes too long.
pub fn table() -> u32 {
    println!();
    println!("| pulse stream in 64 MiB | validate ms | read ms | summary ms | summary / (validate + read) |");
    println!("|---|---|---|---|---|");
    makes().map(row).sum()
}

/// The three by turns.
fn row(made: Made) -> u32 {
    let Made { name, mut image, total } = made;
    let (mut work, mut out) = (vec![1; work_needed(image.len())], vec![1; length()]);
    let read = Call::Read { path: path(), offset: 0, out: Vec::new() };
    let summary = Call::PulseSummary { path: path() };
    let (mut validations, mut reads, mut summaries) = (Vec::new(), Vec::new(), Vec::new());
    let mut right = true;
    for _ in 0..ROUNDS {
        right &= once(&mut validations, || library::validate(&image, &mut work)) == 0;
        let given = once(&mut reads, || library::call(&read, &mut image, &mut work, &mut out));
        right &= given == Some((0, [length() as u64, 0, 0]));
        let given = once(&mut summaries, || library::call(&summary, &mut image, &mut work, &mut []));
        right &= given == Some((0, [RECORDS as u64, total, 0]));
    }
    let (validate, read, summary) = (median(validations), median(reads), median(summaries));
    let ratio = summary / (validate + read);
    let ratio_text = if right { format!("{ratio:.2}") } else { "wrong".to_string() };
    println!("| {name} | {validate:.3} | {read:.3} | {summary:.3} | {ratio_text} |");
    (!right || ratio > LIMIT) as u32
}
