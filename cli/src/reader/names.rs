//! Names: their order, and how they are shown.

use std::cmp::Ordering;

/// Small letters are taken as capitals; every other unit stands for itself.
fn fold(unit: u16) -> u16 {
    match unit {
        0x00F7 | 0x03C2 => unit,
        0x0061..=0x007A | 0x00E0..=0x00FE | 0x03B1..=0x03C9 | 0x0430..=0x044F => unit - 0x20,
        0x0450..=0x045F => unit - 0x50,
        0x00FF => 0x0178,
        _ => unit,
    }
}

/// Names order by their number of units first, then unit by unit.
pub fn order(first: &[u16], second: &[u16]) -> Ordering {
    let folded = |name: &[u16]| name.iter().map(|&unit| fold(unit)).collect::<Vec<u16>>();
    first.len().cmp(&second.len()).then_with(|| folded(first).cmp(&folded(second)))
}

/// A name as text. What is neither ASCII that prints nor a letter or digit becomes `\` and its units in four digits of
/// base 16, so that no name can upset a terminal.
pub fn text(units: &[u16]) -> String {
    let mut shown = String::new();
    for decoded in char::decode_utf16(units.iter().copied()) {
        match decoded {
            Ok(c) if c == ' ' || c.is_ascii_graphic() || !c.is_ascii() && c.is_alphanumeric() => shown.push(c),
            Ok(c) => c.encode_utf16(&mut [0; 2]).iter().for_each(|unit| shown += &format!("\\{unit:04X}")),
            Err(lone) => shown += &format!("\\{:04X}", lone.unpaired_surrogate()),
        }
    }
    shown
}
