//! What went wrong, and the exit status that says so.

use std::fmt::Display;
use std::io;
use std::path::Path;

use gyomrelas::Refusal;
use gyomrelas::pulse::PulseRefusal;

use crate::answers;

/// Why a word was not done.
#[derive(Debug)]
pub enum Fault {
    /// The library refused it: whose call, and the number of the answer.
    Refused(String, u32),
    /// A repair was refused: of which file, and the number of what it would leave broken.
    Unrepaired(String, u32),
    /// It was typed wrongly.
    Usage(String),
    /// The system did not do it, or the file is none that can be read or written.
    System(String),
    /// Nobody reads the output any more: nothing to say.
    Hushed,
    /// All was said before; the status is left.
    Told(u8),
}

/// The exit statuses, as the help shows them.
pub const STATUSES: &str = concat!(
    "  0  done; of a check: every file is sound\n",
    "  1  refused by the library, with the number of its answer\n",
    "  2  wrong use\n",
    "  3  the system did not do it: no such file, one that is there already, no permission, a full disk and the like\n",
);

impl Fault {
    /// A refusal of a whole file.
    pub fn of_file(file: &Path, refusal: Refusal) -> Fault {
        Fault::Refused(file.display().to_string(), refusal.number())
    }

    /// A refusal of a repair. One of length or memory is about no rule that a repair could leave broken.
    pub fn of_repair(file: &Path, refusal: Refusal) -> Fault {
        match refusal.number() {
            number @ 10..=18 => Fault::Unrepaired(file.display().to_string(), number),
            _ => Fault::of_file(file, refusal),
        }
    }

    /// A refusal of a call on a path in a file.
    pub fn of_path(file: &Path, path: &[u16], refusal: Refusal) -> Fault {
        Fault::of_pulses(file, path, PulseRefusal::File(refusal))
    }

    /// A refusal of a call on a pulse stream. Up to 18 it is about the file as a whole.
    pub fn of_pulses(file: &Path, path: &[u16], refusal: PulseRefusal) -> Fault {
        let number = refusal.number();
        if number <= 18 || path.is_empty() {
            return Fault::Refused(file.display().to_string(), number);
        }
        Fault::Refused(format!("{}: {}", file.display(), crate::typed::printed(path)), number)
    }

    /// What the system said of a file.
    pub fn system(file: &Path, error: io::Error) -> Fault {
        Fault::System(format!("{}: {error}", file.display()))
    }

    /// The same with a word on what was tried.
    pub fn trying(what: impl Display, file: &Path, error: io::Error) -> Fault {
        Fault::System(format!("{what} {}: {error}", file.display()))
    }

    pub fn status(&self) -> u8 {
        match self {
            Fault::Refused(..) | Fault::Unrepaired(..) => 1,
            Fault::Usage(_) => 2,
            Fault::System(_) | Fault::Hushed => 3,
            Fault::Told(status) => *status,
        }
    }

    /// Says it on standard error.
    pub fn tell(&self) {
        use std::io::Write;
        let text = match self {
            Fault::Refused(subject, number) => refusal(subject, *number, answers::of(*number).1),
            Fault::Unrepaired(subject, number) => refusal(subject, *number, answers::UNREPAIRED),
            Fault::Usage(text) | Fault::System(text) => format!("cfb: {text}\n"),
            Fault::Hushed | Fault::Told(_) => return,
        };
        // where standard error is gone there is nobody to tell
        let _ = io::stderr().write_all(text.as_bytes());
    }
}

/// The two lines about a refusal: what it means, and what can be done.
fn refusal(subject: &str, number: u32, advice: &str) -> String {
    format!("cfb: {subject}: refused {number}: {}\n     {advice}\n", answers::of(number).0)
}
