//! Why a call on a pulse stream was refused.

#![forbid(unsafe_code)]

use std::error::Error;
use std::fmt;
use std::io;

use crate::Refusal;

/// Why a call on a pulse stream was refused. What every call is refused for comes first, then 40, then 41 or 42, and
/// [`Refusal::TooFewFree`] (26) last. Later versions of the library may add some.
#[derive(Clone, Copy, PartialEq, Eq, Hash, Debug)]
#[non_exhaustive]
pub enum PulseRefusal {
    /// What the other calls are refused for too: the image, the work buffer, the path, or too little room.
    File(Refusal),
    /// 40: the stream has fewer than 16 bytes; its trailer disagrees with itself, with the stream's length or with the records;
    /// or a record has no ticks, or a zero field that is not zero.
    NotPulses,
    /// 41: a pulse of no ticks is not added.
    NoTicks,
    /// 42: there is no record of that number.
    NoRecord,
}

impl PulseRefusal {
    /// The number of the answer, as C programs get it.
    pub const fn number(self) -> u32 {
        match self {
            PulseRefusal::File(refusal) => refusal.number(),
            PulseRefusal::NotPulses => 40,
            PulseRefusal::NoTicks => 41,
            PulseRefusal::NoRecord => 42,
        }
    }

    /// The refusal with a number; `None` where there is none, as for 0, which means done.
    pub fn from_number(number: u32) -> Option<PulseRefusal> {
        let own = [PulseRefusal::NotPulses, PulseRefusal::NoTicks, PulseRefusal::NoRecord];
        let file = Refusal::from_number(number).map(PulseRefusal::File);
        file.or_else(|| own.into_iter().find(|refusal| refusal.number() == number))
    }
}

/// An answer: 0, or a refusal.
pub fn answered(number: u32) -> Result<(), PulseRefusal> {
    match number {
        0 => Ok(()),
        _ => Err(PulseRefusal::from_number(number)
            .unwrap_or_else(|| panic!("the linked library gave the answer {number}, which is none"))),
    }
}

impl From<Refusal> for PulseRefusal {
    fn from(refusal: Refusal) -> PulseRefusal {
        PulseRefusal::File(refusal)
    }
}

impl fmt::Display for PulseRefusal {
    fn fmt(&self, f: &mut fmt::Formatter<'_>) -> fmt::Result {
        let text = match self {
            PulseRefusal::File(refusal) => return refusal.fmt(f),
            PulseRefusal::NotPulses => "the stream is no pulse stream: its trailer or one of its records is not right",
            PulseRefusal::NoTicks => "a pulse of no ticks is not added",
            PulseRefusal::NoRecord => "there is no record of that number",
        };
        write!(f, "refused {}: {text}", self.number())
    }
}

impl Error for PulseRefusal {}

/// For programs that speak of `std::io`: a stream that is no pulse stream is invalid data (40), 41 and 42 are an invalid input, and
/// a [`Refusal`] is of its own kind. The refusal is the error's inner one.
impl From<PulseRefusal> for io::Error {
    fn from(refusal: PulseRefusal) -> io::Error {
        let kind = match refusal {
            PulseRefusal::File(file) => io::Error::from(file).kind(),
            PulseRefusal::NotPulses => io::ErrorKind::InvalidData,
            PulseRefusal::NoTicks | PulseRefusal::NoRecord => io::ErrorKind::InvalidInput,
        };
        io::Error::new(kind, refusal)
    }
}
