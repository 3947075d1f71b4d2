//! Numbers as they are typed, and as they are shown.

use crate::fault::Fault;

/// A number, also with K or M behind it: times 1,024 or 1,048,576.
pub fn parse(what: &str, text: &str) -> Result<u64, Fault> {
    let (digits, unit) = match text.char_indices().last() {
        Some((at, 'K' | 'k')) => (&text[..at], 1 << 10),
        Some((at, 'M' | 'm')) => (&text[..at], 1 << 20),
        _ => (text, 1),
    };
    let plain = !digits.is_empty() && digits.bytes().all(|byte| byte.is_ascii_digit());
    let number = if plain { digits.parse::<u64>().ok() } else { None };
    number
        .and_then(|number| number.checked_mul(unit))
        .ok_or_else(|| Fault::Usage(format!("{what}: `{text}` is no number, or too large a one")))
}

/// Ticks of 0.1 ms as hours, minutes and seconds, to the nearest tenth of a second.
pub fn clock(ticks: u64) -> String {
    let tenths = ticks / 1000 + u64::from(ticks % 1000 >= 500);
    let (hours, minutes, seconds) = (tenths / 36_000, tenths / 600 % 60, tenths / 10 % 60);
    format!("{hours}:{minutes:02}:{seconds:02}.{}", tenths % 10)
}

/// A count with its noun, which takes an `s` where it is not one.
pub fn count(number: u64, noun: &str) -> String {
    let plural = if number == 1 { "" } else { "s" };
    format!("{number} {noun}{plural}")
}

#[cfg(test)]
mod tests {
    use super::{clock, parse};

    #[test]
    fn numbers_may_have_a_unit() {
        let parsed = |text| parse("LENGTH", text).ok();
        assert_eq!(parsed("4096"), Some(4096));
        assert_eq!(parsed("64K"), Some(65_536));
        assert_eq!(parsed("1m"), Some(1 << 20));
        for wrong in ["", "K", "+5", "-1", "5 ", "1.5", "0x10", "99999999999999999999", "18446744073709551615M"] {
            assert_eq!(parsed(wrong), None, "{wrong}");
        }
    }

    #[test]
    fn a_tick_is_a_tenth_of_a_millisecond() {
        assert_eq!(clock(0), "0:00:00.0");
        assert_eq!(clock(10_000), "0:00:01.0");
        assert_eq!(clock(599_500), "0:01:00.0");
        assert_eq!(clock(599_499), "0:00:59.9");
        assert_eq!(clock(36_000_000 * 25 + 10_000 * 61), "25:01:01.0");
        assert_eq!(clock(u64::MAX), "512409557603:02:35.2");
    }
}
