//! Why a call was refused.

#![forbid(unsafe_code)]

use std::error::Error;
use std::fmt;
use std::io;

/// Writes the enum, and the way from a number to it, from one table.
macro_rules! refusals {
    ($($number:literal $name:ident $text:literal)*) => {
        /// Why a call was refused. Of all refusals that apply, a call gives the one of the lowest number, but of 21 and
        /// 22 the one of the first name that fails, and 33 before 24. Later versions of the library may add some.
        #[derive(Clone, Copy, PartialEq, Eq, Hash, Debug)]
        #[non_exhaustive]
        #[repr(u32)]
        pub enum Refusal {
            $(#[doc = concat!(stringify!($number), ": ", $text, ".")] $name = $number,)*
        }

        impl Refusal {
            /// All of them, by their numbers.
            pub const ALL: &'static [Refusal] = &[$(Refusal::$name),*];

            fn text(self) -> &'static str {
                match self {
                    $(Refusal::$name => $text,)*
                }
            }
        }
    };
}

refusals! {
    1 BadLength "the image's length is no multiple of 512 from 1,536 to 67,108,864; in version 4 of 4,096 from 12,288; or not the plan's"
    2 ShortWork "the work buffer or the spare buffer is too short"
    10 Header "the image breaks a rule on the header"
    11 Tables "the image breaks a rule on the sectors of the tables"
    12 Cells "the image breaks a rule on the tables' cells"
    13 Directory "the image breaks a rule on the directory's chain"
    14 Entries "the image breaks a rule on the fields of an entry"
    15 Trees "the image breaks a rule on the trees of entries"
    16 Mini "the image breaks a rule on the mini tables"
    17 Streams "the image breaks a rule on the streams' chains"
    18 Owners "the image breaks a rule on who owns a sector"
    20 BadPath "a name of the path is empty, longer than 31 units, or has a unit 0, '\\', ':' or '!'"
    21 NotFound "a storage on the way has no child of that name"
    22 StreamOnTheWay "a stream stands where a storage is needed"
    23 NotAStream "the path ends at a storage or the root, and a stream is needed"
    24 Beyond "a read would start, or a write end, behind the stream's end"
    26 TooFewFree "there are too few free sectors or mini sectors"
    27 OutTooShort "the listing is longer than the out buffer"
    28 NotEmpty "the storage to be removed has something in it"
    29 AlreadyThere "something is at the path already"
    30 NoBlankEntry "no entry of the directory is blank"
    31 RootRemoved "the root cannot be removed"
    32 PlanDoesNotFit "the plan has an unknown version, no directory, too small a mini FAT, or more than its sectors hold"
    33 BadEntry "the entry number is beyond the directory, or of an entry that is no stream"
}

impl Refusal {
    /// The number of the answer, as C programs get it.
    pub const fn number(self) -> u32 {
        self as u32
    }

    /// The refusal with a number; `None` where there is none, as for 0, which means done.
    pub fn from_number(number: u32) -> Option<Refusal> {
        Refusal::ALL.iter().copied().find(|refusal| refusal.number() == number)
    }
}

impl fmt::Display for Refusal {
    fn fmt(&self, f: &mut fmt::Formatter<'_>) -> fmt::Result {
        write!(f, "refused {}: {}", self.number(), self.text())
    }
}

impl Error for Refusal {}

/// For programs that speak of `std::io`: an image that is refused is invalid data (1, 10 to 18), a name that is not there is
/// not found (21), too few free sectors and a directory without a blank entry are a full storage (26, 30), a storage that is
/// not empty is a directory of that kind (28), what is there already exists (29), and all others are an invalid input. The
/// refusal is the error's inner one.
impl From<Refusal> for io::Error {
    fn from(refusal: Refusal) -> io::Error {
        let kind = match refusal.number() {
            1 | 10..=18 => io::ErrorKind::InvalidData,
            21 => io::ErrorKind::NotFound,
            26 | 30 => io::ErrorKind::StorageFull,
            28 => io::ErrorKind::DirectoryNotEmpty,
            29 => io::ErrorKind::AlreadyExists,
            _ => io::ErrorKind::InvalidInput,
        };
        io::Error::new(kind, refusal)
    }
}
