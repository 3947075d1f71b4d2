//! `cfb pulses`: what a pulse stream adds up to.

use gyomrelas::pulse::{PulseRefusal, Records, record, summary};

use crate::args::Args;
use crate::fault::Fault;
use crate::numbers::clock;
use crate::output::Output;
use crate::progress::Progress;
use crate::source::Image;
use crate::word::{Opt, Word};

/// So many of the last records are shown where nothing is said.
const SHOWN: u64 = 10;

pub const WORD: Word = Word {
    name: "pulses",
    operands: "FILE PATH",
    count: (2, 2),
    options: &[Opt { name: "-n", value: Some("COUNT"), about: "show so many of the last records (default 10)" }],
    about: "show count, total and last records of a pulse stream",
    help: "\
Shows how many pulses the pulse stream at PATH holds, how long the valves were open together, in ticks of 0.1 ms and in
h:mm:ss.s, and the last records: number from 0, valve, ticks.",
    run,
};

fn run(args: &Args) -> Result<(), Fault> {
    let (file, path) = (args.file(0), args.path(1)?);
    let wanted = args.number("-n")?.unwrap_or(SHOWN);
    let mut image = Image::read(file)?;
    let told = told(&mut image, &path, wanted);
    let mut output = Output::new();
    for line in told.map_err(|refusal| Fault::of_pulses(file, &path, refusal))? {
        output.line(&line)?;
    }
    output.end()
}

/// The lines about a pulse stream.
fn told(Image { bytes, work }: &mut Image, path: &[u16], wanted: u64) -> Result<Vec<String>, PulseRefusal> {
    let totals = summary(bytes, work, path)?;
    let (count, total) = (totals.count.0, totals.total.0);
    let mut lines = vec![format!("pulses {count}"), format!("ticks {total}"), format!("time {}", clock(total))];
    let first = count - u32::try_from(wanted).unwrap_or(u32::MAX).min(count);
    let mut progress = Progress::new();
    for number in first..count {
        progress.show(|| format!("record {number} of {count}"));
        let pulse = record(bytes, work, path, Records(number))?;
        lines.push(format!("record {number}: valve {} ticks {}", pulse.valve.0, pulse.ticks.0));
    }
    Ok(lines)
}
