//! Standard output, whose errors end the word.

use std::io::{self, BufWriter, ErrorKind, StdoutLock, Write};

use crate::fault::Fault;

/// Standard output with a buffer. It has to be flushed by `end`.
pub struct Output(BufWriter<StdoutLock<'static>>);

impl Output {
    pub fn new() -> Output {
        Output(BufWriter::with_capacity(1 << 16, io::stdout().lock()))
    }

    /// Writes a line.
    pub fn line(&mut self, text: &str) -> Result<(), Fault> {
        self.bytes(text.as_bytes())?;
        self.bytes(b"\n")
    }

    /// Writes bytes as they are.
    pub fn bytes(&mut self, bytes: &[u8]) -> Result<(), Fault> {
        self.0.write_all(bytes).map_err(unwritten)
    }

    /// Writes what is in the buffer now.
    pub fn flush(&mut self) -> Result<(), Fault> {
        self.0.flush().map_err(unwritten)
    }

    /// Writes what is still in the buffer.
    pub fn end(mut self) -> Result<(), Fault> {
        self.flush()
    }
}

/// Writes a text.
pub fn text(text: &str) -> Result<(), Fault> {
    let mut output = Output::new();
    output.bytes(text.as_bytes())?;
    output.end()
}

/// A reader that went away, as `head` does, is no news to anybody.
fn unwritten(error: io::Error) -> Fault {
    match error.kind() {
        ErrorKind::BrokenPipe => Fault::Hushed,
        _ => Fault::System(format!("standard output: {error}")),
    }
}
