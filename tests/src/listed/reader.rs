//! A listing's bytes, read back: written from the papers, with nothing of what writes listings. Whatever is not as the
//! papers say is an error.

use crate::volume::entry::{STORAGE, STREAM};

/// An object as its line names it.
#[derive(Clone, PartialEq, Debug)]
pub struct Object {
    pub kind: u8,
    pub size: u64,
    /// The names from below the root down to the object.
    pub path: Vec<Vec<u16>>,
}

/// The objects of a listing, in the order of its lines.
pub fn read(text: &[u8]) -> Result<Vec<Object>, String> {
    let text = text.strip_suffix(b"\n").ok_or("the last line does not end")?;
    let mut lines = text.split(|&byte| byte == b'\n');
    let first = lines.next().expect("a text has a first piece");
    let count = first.strip_prefix(b"objects ").and_then(decimal).ok_or("another first line")?;
    let objects: Vec<Object> = lines
        .map(|line| object(line).ok_or_else(|| format!("line {:?}", String::from_utf8_lossy(line))))
        .collect::<Result<_, _>>()?;
    if objects.len() as u64 != count {
        return Err(format!("{} lines for {count} objects", objects.len()));
    }
    Ok(objects)
}

/// `F`, a size and a path; or `D`, 0 and a path. A path may have spaces in it.
fn object(line: &[u8]) -> Option<Object> {
    let mut words = line.splitn(3, |&byte| byte == b' ');
    let (letter, size, path) = (words.next()?, decimal(words.next()?)?, words.next()?);
    let kind = match letter {
        b"F" => STREAM,
        b"D" if size == 0 => STORAGE,
        _ => return None,
    };
    Some(Object { kind, size, path: path.split(|&byte| byte == b'/').map(name).collect::<Option<_>>()? })
}

/// Digits, of which the first is 0 only where it is the only one.
fn decimal(digits: &[u8]) -> Option<u64> {
    let plain = digits.iter().all(u8::is_ascii_digit) && (digits.len() == 1 || digits.first()? != &b'0');
    std::str::from_utf8(digits).ok().filter(|_| plain)?.parse().ok()
}

/// 1 to 31 units: bytes 20 to 7E stand for themselves, and `\` with four capital hex digits for any other unit.
fn name(mut text: &[u8]) -> Option<Vec<u16>> {
    let mut units = Vec::new();
    while let Some((&byte, rest)) = text.split_first() {
        text = rest;
        units.push(match byte {
            b'\\' => {
                let (digits, rest) = text.split_at_checked(4)?;
                text = rest;
                coded(digits)?
            }
            0x20..=0x7E => byte as u16,
            _ => return None,
        });
    }
    (1..=31).contains(&units.len()).then_some(units)
}

fn coded(digits: &[u8]) -> Option<u16> {
    let value = |digit: &u8| match digit {
        b'0'..=b'9' => Some(digit - b'0'),
        b'A'..=b'F' => Some(digit - b'A' + 10),
        _ => None,
    };
    let unit = digits.iter().try_fold(0, |unit, digit| Some(16 * unit + value(digit)? as u16))?;
    (!(0x20..=0x7E).contains(&unit)).then_some(unit)
}
