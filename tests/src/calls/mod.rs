//! The library's calls, done independently: each takes the image apart anew and answers as the papers say.

pub mod create;
pub mod find;
pub mod format;
pub mod list;
pub mod overwrite;
pub mod patch;
pub mod path;
pub mod pulse;
pub mod read;
pub mod remove;
pub mod repair;
pub mod set_length;
pub mod siblings;
pub mod stream;

use crate::volume::entry::{STORAGE, STREAM};
use crate::volume::{Volume, admit, version};
use format::Fresh;
use patch::Patch;
use pulse::Pulse;

/// A call with its path, numbers and bytes to be written, and the first content of its out buffer or spare buffer.
#[derive(Clone, PartialEq, Debug)]
pub enum Call {
    Validate,
    Find { path: Vec<u16> },
    Read { path: Vec<u16>, offset: u64, out: Vec<u8> },
    List { out: Vec<u8> },
    Overwrite { path: Vec<u16>, offset: u64, bytes: Vec<u8> },
    SetLength { path: Vec<u16>, length: u64 },
    CreateStream { path: Vec<u16> },
    CreateStorage { path: Vec<u16> },
    Remove { path: Vec<u16> },
    Format(Fresh),
    Repair { spare: Vec<u8> },
    ReadAt { entry: u32, position: u64, out: Vec<u8> },
    PulseSummary { path: Vec<u16> },
    PulseRecord { path: Vec<u16>, number: u32 },
    PulseAdd { path: Vec<u16>, pulse: Pulse },
}

/// What a call hands back.
#[derive(Clone, PartialEq, Debug)]
pub struct Outcome {
    pub answer: u32,
    /// Of a find the entry number, kind and size; of both reads, a listing and a repair the count; of a pulse stream's summary the count
    /// of records and the total of their ticks, and of a record its valve and its ticks. Then zeros.
    pub values: [u64; 3],
    /// The out buffer after the call; of a repair the spare buffer.
    pub out: Vec<u8>,
}

impl Outcome {
    /// After a refusal all values are 0.
    pub fn of(result: Result<[u64; 3], u32>, out: Vec<u8>) -> Outcome {
        Outcome { answer: result.err().unwrap_or(0), values: result.unwrap_or([0; 3]), out }
    }
}

impl Call {
    pub fn name(&self) -> &'static str {
        match self {
            Call::Validate => "validate",
            Call::Find { .. } => "find",
            Call::Read { .. } => "read",
            Call::List { .. } => "list",
            Call::Overwrite { .. } => "overwrite",
            Call::SetLength { .. } => "set_len",
            Call::CreateStream { .. } => "create_stream",
            Call::CreateStorage { .. } => "create_storage",
            Call::Remove { .. } => "remove",
            Call::Format(_) => "format",
            Call::Repair { .. } => "repair",
            Call::ReadAt { .. } => "read_at",
            Call::PulseSummary { .. } => "pulse_summary",
            Call::PulseRecord { .. } => "pulse_record",
            Call::PulseAdd { .. } => "pulse_add",
        }
    }

    /// The name of the call on an opened volume; to open is to validate, and what has no such form is done when it is closed.
    pub fn opened_name(&self) -> &'static str {
        match self {
            Call::Validate => "open",
            Call::Find { .. } => "opened find",
            Call::Read { .. } => "opened read",
            Call::List { .. } => "opened list",
            Call::Overwrite { .. } => "opened overwrite",
            Call::SetLength { .. } => "opened set_len",
            Call::CreateStream { .. } => "opened create_stream",
            Call::CreateStorage { .. } => "opened create_storage",
            Call::Remove { .. } => "opened remove",
            Call::ReadAt { .. } => "opened read_at",
            _ => self.name(),
        }
    }

    /// Whether the call validates the image before all else.
    pub fn validates(&self) -> bool {
        !matches!(self, Call::Format(_) | Call::Repair { .. })
    }

    /// Whether it has a form on an opened volume, or is answered by opening one: what validates, but for the calls on pulse streams.
    pub fn has_opened_form(&self) -> bool {
        let on_pulses = matches!(self, Call::PulseSummary { .. } | Call::PulseRecord { .. } | Call::PulseAdd { .. });
        self.validates() && !on_pulses
    }

    /// Whether it is lent a work buffer.
    pub fn has_work(&self) -> bool {
        !matches!(self, Call::Format(_))
    }

    /// The major version that the call goes by: the image's, or the one of the fresh image that is asked for.
    pub fn version(&self, image: &[u8]) -> u16 {
        if let Call::Format(asked) = self { asked.geometry().major } else { version(image).major }
    }

    /// The first content of the out buffer or of the spare buffer; empty where there is none.
    pub fn out(&self) -> &[u8] {
        match self {
            Call::Read { out, .. } | Call::List { out } | Call::Repair { spare: out } | Call::ReadAt { out, .. } => out,
            _ => &[],
        }
    }
}

/// A call with the answers that it has an occasion for.
pub type CallAnswers = (&'static str, &'static [u32]);
pub type Answers = [CallAnswers];

/// Every plain call.
pub const ANSWERS: &Answers = &[
    ("validate", &[0, 1, 2, 10, 11, 12, 13, 14, 15, 16, 17, 18]),
    ("find", &[0, 1, 2, 10, 11, 12, 13, 14, 15, 16, 17, 18, 20, 21, 22]),
    ("read", &[0, 1, 2, 10, 11, 12, 13, 14, 15, 16, 17, 18, 20, 21, 22, 23, 24]),
    ("list", &[0, 1, 2, 10, 11, 12, 13, 14, 15, 16, 17, 18, 27]),
    ("overwrite", &[0, 1, 2, 10, 11, 12, 13, 14, 15, 16, 17, 18, 20, 21, 22, 23, 24]),
    ("set_len", &[0, 1, 2, 10, 11, 12, 13, 14, 15, 16, 17, 18, 20, 21, 22, 23, 26]),
    ("create_stream", &[0, 1, 2, 10, 11, 12, 13, 14, 15, 16, 17, 18, 20, 21, 22, 29, 30]),
    ("create_storage", &[0, 1, 2, 10, 11, 12, 13, 14, 15, 16, 17, 18, 20, 21, 22, 29, 30]),
    ("remove", &[0, 1, 2, 10, 11, 12, 13, 14, 15, 16, 17, 18, 20, 21, 22, 28, 31]),
    ("format", &[0, 1, 32]),
    ("repair", &[0, 1, 2, 10, 11, 12, 13, 14, 15, 16, 17, 18]),
    ("read_at", &[0, 1, 2, 10, 11, 12, 13, 14, 15, 16, 17, 18, 24, 33]),
    ("pulse_summary", &[0, 1, 2, 10, 11, 12, 13, 14, 15, 16, 17, 18, 20, 21, 22, 23, 40]),
    ("pulse_record", &[0, 1, 2, 10, 11, 12, 13, 14, 15, 16, 17, 18, 20, 21, 22, 23, 40, 42]),
    ("pulse_add", &[0, 1, 2, 10, 11, 12, 13, 14, 15, 16, 17, 18, 20, 21, 22, 23, 26, 40, 41]),
];

/// Changes of length over the cutoff, which are counted by themselves too (W-201), and additions to a pulse stream that make one.
pub const CROSSINGS: [CallAnswers; 3] =
    [("set_len up", &[0, 26]), ("set_len down", &[0, 26]), ("pulse_add up", &[0, 26])];

/// Opening, and every call on an opened volume, which is not refused for its image.
pub const OPENED_ANSWERS: &Answers = &[
    ("open", &[0, 1, 2, 10, 11, 12, 13, 14, 15, 16, 17, 18]),
    ("opened find", &[0, 20, 21, 22]),
    ("opened read", &[0, 20, 21, 22, 23, 24]),
    ("opened list", &[0, 27]),
    ("opened overwrite", &[0, 20, 21, 22, 23, 24]),
    ("opened set_len", &[0, 20, 21, 22, 23, 26]),
    ("opened create_stream", &[0, 20, 21, 22, 29, 30]),
    ("opened create_storage", &[0, 20, 21, 22, 29, 30]),
    ("opened remove", &[0, 20, 21, 22, 28, 31]),
    ("opened read_at", &[0, 24, 33]),
];

/// What validating or opening answers where a call answers this: only numbers below 20 are about the image and the work
/// buffer.
pub fn of_image(answer: u32) -> u32 {
    if answer < 20 { answer } else { 0 }
}

/// Does the call on an image lent with so long a work buffer.
pub fn perform(call: &Call, image: &mut [u8], work_len: usize) -> Outcome {
    if let Call::Format(asked) = call {
        return Outcome::of(format::format(asked, image), Vec::new());
    }
    let mut out = call.out().to_vec();
    if let Call::Repair { .. } = call {
        return Outcome::of(repair::repair(image, work_len, &mut out), out);
    }
    let result = admit(image, work_len).and_then(|volume| done(call, &volume, &mut out));
    let result = result.map(|(values, patches)| {
        patch::apply(image, &patches);
        values
    });
    Outcome::of(result, out)
}

/// The values that the call gives, and what it changes in the image.
fn done(call: &Call, volume: &Volume, out: &mut [u8]) -> Result<([u64; 3], Vec<Patch>), u32> {
    let mut values = [0; 3];
    let mut patches = Vec::new();
    match call {
        Call::Validate => {}
        Call::Find { path } => {
            let found = find::find(volume, path)?;
            values = [found.entry as u64, found.kind as u64, found.size];
        }
        Call::Read { path, offset, .. } => values[0] = read::read(volume, path, *offset, out)?,
        Call::ReadAt { entry, position, .. } => values[0] = read::read_at(volume, *entry, *position, out)?,
        Call::List { .. } => values[0] = list::list(volume, out)?,
        Call::Overwrite { path, offset, bytes } => patches = overwrite::overwrite(volume, path, *offset, bytes)?,
        Call::SetLength { path, length } => patches = set_length::set_length(volume, path, *length)?,
        Call::CreateStream { path } => patches = create::create(volume, path, STREAM)?,
        Call::CreateStorage { path } => patches = create::create(volume, path, STORAGE)?,
        Call::Remove { path } => patches = remove::remove(volume, path)?,
        Call::PulseSummary { path } => values = pulse::summary(volume, path)?,
        Call::PulseRecord { path, number } => values = pulse::record(volume, path, *number)?,
        Call::PulseAdd { path, pulse } => patches = pulse::add(volume, path, *pulse)?,
        Call::Format(_) | Call::Repair { .. } => panic!("no call on a valid image"),
    }
    Ok((values, patches))
}

/// The call in words, without the bytes.
impl std::fmt::Display for Call {
    fn fmt(&self, f: &mut std::fmt::Formatter) -> std::fmt::Result {
        let text = |path: &[u16]| String::from_utf16_lossy(path);
        match self {
            Call::Validate => write!(f, "validate"),
            Call::Find { path } => write!(f, "find {:?}", text(path)),
            Call::Read { path, offset, out } => write!(f, "read {:?} from {offset}, out {}", text(path), out.len()),
            Call::List { out } => write!(f, "list, out {}", out.len()),
            Call::Overwrite { path, offset, bytes } => {
                write!(f, "overwrite {:?} from {offset}, {} bytes", text(path), bytes.len())
            }
            Call::SetLength { path, length } => write!(f, "set_len {:?} to {length}", text(path)),
            Call::CreateStream { path } | Call::CreateStorage { path } | Call::Remove { path } => {
                write!(f, "{} {:?}", self.name(), text(path))
            }
            Call::Format(asked) => write!(f, "{asked:?}"),
            Call::Repair { spare } => write!(f, "repair, spare {}", spare.len()),
            Call::ReadAt { entry, position, out } => write!(f, "read_at {entry} from {position}, out {}", out.len()),
            Call::PulseSummary { path } => write!(f, "{} {:?}", self.name(), text(path)),
            Call::PulseRecord { path, number } => write!(f, "{} {:?}, number {number}", self.name(), text(path)),
            Call::PulseAdd { path, pulse } => write!(f, "{} {:?}, {pulse:?}", self.name(), text(path)),
        }
    }
}
