//! From the numbers that the library gives to results.

#![forbid(unsafe_code)]

use crate::{Entry, Kind, Refusal};

/// An answer: 0, or a refusal.
pub fn answered(number: u32) -> Result<(), Refusal> {
    match number {
        0 => Ok(()),
        _ => Err(Refusal::from_number(number)
            .unwrap_or_else(|| panic!("the linked library gave the answer {number}, which is none"))),
    }
}

/// The answer of a find, with the entry's number, type and size.
pub fn found((answer, number, kind, size): (u32, u32, u32, u64)) -> Result<Entry, Refusal> {
    answered(answer)?;
    Ok(Entry { number, kind: Kind::of(kind), size })
}

/// An answer with a count of bytes in an out buffer: at most the buffer's length.
pub fn counted((answer, count): (u32, u64)) -> Result<usize, Refusal> {
    answered(answer)?;
    Ok(usize::try_from(count).expect("a count is at most the out buffer's length"))
}
