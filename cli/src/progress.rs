//! A line of progress on standard error, on a terminal alone, for what takes longer than a second.

use std::io::{self, IsTerminal, Write};
use std::time::{Duration, Instant};

/// The line. It is wiped when this is dropped.
pub struct Progress {
    terminal: bool,
    /// When the line is written next.
    next: Instant,
    shown: bool,
}

impl Progress {
    pub fn new() -> Progress {
        let next = Instant::now() + Duration::from_secs(1);
        Progress { terminal: io::stderr().is_terminal(), next, shown: false }
    }

    /// Shows a text, at most ten times a second.
    pub fn show(&mut self, text: impl FnOnce() -> String) {
        if self.terminal && Instant::now() >= self.next {
            self.write(&format!("\r\x1b[K{}", fitted(&text())));
            self.next = Instant::now() + Duration::from_millis(100);
            self.shown = true;
        }
    }

    /// Wipes the line, before something else is written.
    pub fn wipe(&mut self) {
        if self.shown {
            self.write("\r\x1b[K");
            self.shown = false;
        }
    }

    fn write(&self, text: &str) {
        let mut error = io::stderr();
        // progress that cannot be shown is no reason to stop
        let _ = error.write_all(text.as_bytes()).and_then(|()| error.flush());
    }
}

impl Drop for Progress {
    fn drop(&mut self) {
        self.wipe();
    }
}

/// A text that fits on one line of a terminal.
fn fitted(text: &str) -> String {
    let plain = text.chars().map(|letter| if letter.is_control() { '?' } else { letter });
    plain.take(79).collect()
}
