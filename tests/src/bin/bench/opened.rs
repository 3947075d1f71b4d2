//! The last table: a thousand calls on one file, each plain, and all of them on a volume opened once.

use super::times::{median, once};
use cfb_tests::bench::many;
use cfb_tests::calls::Call;
use cfb_tests::library::{self, Volume};
use cfb_tests::volume::work_needed;
use std::time::Duration;

const ROUNDS: usize = 7;
/// Of what takes hardly any time.
const SHORT_ROUNDS: usize = 101;

/// What a thousand calls are done with, and what they give.
#[derive(PartialEq)]
struct Done {
    image: Vec<u8>,
    work: Vec<u32>,
    outs: Vec<Vec<u8>>,
    given: Vec<(u32, [u64; 3])>,
}

#[derive(Default)]
struct Times {
    plain: Vec<Duration>,
    open: Vec<Duration>,
    calls: Vec<Duration>,
    close: Vec<Duration>,
}

/// Prints it; in how many rows the two ways differ.
pub fn table() -> u32 {
    let image = many::image();
    println!();
    println!(
        "| on {} bytes with {} streams | answers | plain ms | opened ms | plain / opened |",
        image.len(),
        many::STREAMS
    );
    println!("|---|---|---|---|---|");
    validation(&image);
    row("1,000 reads of 1,000 bytes", &image, &many::reads()) + row("1,000 changes of length", &image, &many::changes())
}

/// Two lines of the table: validating against opening, and closing.
fn validation(image: &[u8]) {
    let Done { mut image, mut work, .. } = Done::new(image, &[]);
    let (mut times, mut volume) = (Times::default(), Volume::default());
    for _ in 0..SHORT_ROUNDS {
        let valid = once(&mut times.plain, || library::validate(&image, &mut work));
        let opened = once(&mut times.open, || library::open(&mut image, &mut work, &mut volume));
        assert_eq!((valid, opened), (0, 0), "a valid image");
        once(&mut times.close, || library::close(&mut image, &mut work, &mut volume));
    }
    let (plain, open, close) = (median(times.plain), median(times.open), median(times.close));
    println!("| validate; open | 0 | {plain:.3} | {open:.3} | {:.2} |", plain / open);
    println!("| close | - | - | {close:.3} | - |");
}

/// Two lines of the table: these calls with opening and closing, and without. 1 if the two ways differ.
fn row(name: &str, image: &[u8], calls: &[Call]) -> u32 {
    let mut times = Times::default();
    let mut differs = false;
    let mut answers = String::new();
    for _ in 0..ROUNDS {
        let (plain, opened) = (plain(image, calls, &mut times), opened(image, calls, &mut times));
        differs |= plain != opened;
        answers = counted(&plain.given);
    }
    let whole =
        times.open.iter().zip(&times.calls).zip(&times.close).map(|((open, calls), close)| *open + *calls + *close);
    let (whole, alone, plain) = (median(whole.collect()), median(times.calls), median(times.plain));
    let answers = if differs { "they differ".to_string() } else { answers };
    println!("| {name} | {answers} | {plain:.3} | {whole:.3} | {:.0} |", plain / whole);
    println!("| the same, without open and close | {answers} | {plain:.3} | {alone:.3} | {:.0} |", plain / alone);
    differs as u32
}

fn plain(image: &[u8], calls: &[Call], times: &mut Times) -> Done {
    let mut done = Done::new(image, calls);
    let Done { image, work, outs, given } = &mut done;
    once(&mut times.plain, || {
        for (call, out) in calls.iter().zip(&mut *outs) {
            given.push(library::call(call, image, work, out).expect("every call is linked"));
        }
    });
    done
}

fn opened(image: &[u8], calls: &[Call], times: &mut Times) -> Done {
    let mut done = Done::new(image, calls);
    let Done { image, work, outs, given } = &mut done;
    let mut volume = Volume::default();
    let answer = once(&mut times.open, || library::open(image, work, &mut volume));
    assert_eq!(answer, 0, "a valid image");
    once(&mut times.calls, || {
        for (call, out) in calls.iter().zip(&mut *outs) {
            given.push(library::opened_call(call, image, work, &mut volume, out).expect("every call is linked"));
        }
    });
    once(&mut times.close, || library::close(image, work, &mut volume));
    done
}

impl Done {
    /// Buffers for these calls, all of them written to before.
    fn new(image: &[u8], calls: &[Call]) -> Done {
        let outs = calls.iter().map(|call| call.out().to_vec()).collect();
        let (image, work) = (image.to_vec(), vec![1; work_needed(image.len())]);
        Done { image, work, outs, given: Vec::with_capacity(calls.len()) }
    }
}

/// How often each answer was given.
fn counted(given: &[(u32, [u64; 3])]) -> String {
    let mut counts = std::collections::BTreeMap::new();
    given.iter().for_each(|(answer, _)| *counts.entry(answer).or_insert(0) += 1);
    counts.iter().map(|(answer, times)| format!("{answer}: {times}")).collect::<Vec<_>>().join(", ")
}
