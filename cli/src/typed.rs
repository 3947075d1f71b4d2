//! Paths as they are typed and printed: `\` and four digits of base 16 stand for a unit that does not print.

use crate::fault::Fault;

/// The units of a path as it is typed. A `\` is in no name, so it begins a unit in digits and nothing else.
pub fn units(text: &str) -> Result<Vec<u16>, Fault> {
    let mut parts = text.split('\\');
    let mut units: Vec<u16> = parts.next().unwrap_or("").encode_utf16().collect();
    for part in parts {
        let digits = part.get(..4).filter(|digits| digits.bytes().all(|digit| digit.is_ascii_hexdigit()));
        let unit = digits.and_then(|digits| u16::from_str_radix(digits, 16).ok());
        units.push(unit.ok_or_else(|| unread(text))?);
        units.extend(part[4..].encode_utf16());
    }
    Ok(units)
}

fn unread(text: &str) -> Fault {
    Fault::Usage(format!("`{text}`: behind a `\\` stand four digits of base 16, as `cfb ls` prints them"))
}

/// A path as the listing prints it.
pub fn printed(path: &[u16]) -> String {
    let mut text = String::with_capacity(path.len());
    for unit in path {
        match u8::try_from(*unit) {
            Ok(byte @ 0x20..=0x7e) => text.push(char::from(byte)),
            _ => text.push_str(&escaped(*unit)),
        }
    }
    text
}

/// A unit in digits.
pub fn escaped(unit: u16) -> String {
    format!("\\{unit:04X}")
}

#[cfg(test)]
mod tests {
    use super::{printed, units};

    #[test]
    fn what_is_printed_can_be_typed() {
        for path in [&[5, 0x53, 0x2f, 0xfffd][..], &[0xd800, 0x20, 0x7e, 0x7f], &[], &[0x436, 0x1f]] {
            assert_eq!(units(&printed(path)).expect("a printed path"), path);
        }
        assert_eq!(printed(&[5, 0x53, 0xabcd]), "\\0005S\\ABCD");
    }

    #[test]
    fn letters_are_taken_as_they_are() {
        assert_eq!(units("\u{e9}\\00e9").expect("well typed"), [0xe9, 0xe9]);
        assert_eq!(units("\u{1f600}").expect("well typed"), [0xd83d, 0xde00]);
    }

    #[test]
    fn a_lone_backslash_is_wrong_use() {
        for wrong in ["\\", "a\\b", "\\12", "\\12g4", "\\+123", "\\00\u{e9}9"] {
            assert!(units(wrong).is_err(), "{wrong}");
        }
    }
}
