//! The limit on the size of files (`ulimit -f`). A write beyond it ends the program by a signal, with the file begun:
//! so it is asked for first.

use std::fs;
use std::io::{Error, ErrorKind, Result};

/// An error where a file of so many bytes is longer than the limit allows.
pub fn allowed(bytes: usize) -> Result<()> {
    match file_size() {
        Some(limit) if bytes as u64 > limit => {
            Err(Error::new(ErrorKind::FileTooLarge, format!("the limit on the size of files is {limit} bytes")))
        }
        _ => Ok(()),
    }
}

/// The limit in bytes, where there is one that can be read.
fn file_size() -> Option<u64> {
    limit(&fs::read_to_string("/proc/self/limits").ok()?)
}

/// The first number behind `Max file size`, which is the one that counts.
fn limit(text: &str) -> Option<u64> {
    let line = text.lines().find_map(|line| line.strip_prefix("Max file size"))?;
    line.split_whitespace().next()?.parse().ok()
}

#[cfg(test)]
mod tests {
    use super::limit;

    #[test]
    fn the_limit_is_read() {
        let text = |soft| format!("Max cpu time   5  6  seconds\nMax file size   {soft}   unlimited   bytes\n");
        assert_eq!(limit(&text("1024")), Some(1024));
        assert_eq!(limit(&text("unlimited")), None);
        assert_eq!(limit(""), None);
    }
}
