//! `cfb pulse`: adds a pulse.

use gyomrelas::pulse::{Ticks, Valve, add};

use crate::args::Args;
use crate::edit::edit;
use crate::fault::Fault;
use crate::source::Image;
use crate::word::Word;

pub const WORD: Word = Word {
    name: "pulse",
    operands: "FILE PATH VALVE TICKS",
    count: (4, 4),
    options: &[],
    about: "add a pulse to a pulse stream",
    help: "\
Adds a record to the pulse stream at PATH: that VALVE (0 to 65535) was open for TICKS of 0.1 ms (1 to 4294967295). Any
stream becomes a pulse stream without records by 16 bytes at its end, one of the value 16 and 15 of the value 0:
  printf '\\020\\0\\0\\0\\0\\0\\0\\0\\0\\0\\0\\0\\0\\0\\0\\0' | cfb append FILE PATH",
    run,
};

fn run(args: &Args) -> Result<(), Fault> {
    let (file, path) = (args.file(0), args.path(1)?);
    let valve = u16::try_from(args.number_at(2, "VALVE")?).map_err(|_| too_large("VALVE", u16::MAX.into()))?;
    let ticks = u32::try_from(args.number_at(3, "TICKS")?).map_err(|_| too_large("TICKS", u32::MAX))?;
    edit(file, |Image { bytes, work }| {
        let added = add(bytes, work, &path, Valve(valve), Ticks(ticks));
        added.map_err(|refusal| Fault::of_pulses(file, &path, refusal))
    })
}

fn too_large(what: &str, most: u32) -> Fault {
    Fault::Usage(format!("{what}: at most {most}"))
}
