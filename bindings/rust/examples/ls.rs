//! Lists compound files: ls FILE...

use std::env;
use std::error::Error;
use std::fs;
use std::io::{self, Write};
use std::process::ExitCode;

use gyomrelas::{list, work_need, Refusal};

fn main() -> ExitCode {
    let mut code = ExitCode::SUCCESS;
    for name in env::args_os().skip(1) {
        if let Err(error) = print(&name) {
            eprintln!("{}: {error}", name.to_string_lossy());
            code = ExitCode::FAILURE;
        }
    }
    code
}

fn print(name: &std::ffi::OsStr) -> Result<(), Box<dyn Error>> {
    let image = fs::read(name)?;
    io::stdout().write_all(&listing(&image)?)?;
    Ok(())
}

/// No longer listing is tried: a file can be made whose listing takes gigabytes.
const MOST: usize = 1 << 26;

/// The listing, in an out buffer that is made longer until it fits.
fn listing(image: &[u8]) -> Result<Vec<u8>, Refusal> {
    let mut work = vec![0; work_need(image.len())];
    let mut out = vec![0; 4096];
    loop {
        match list(image, &mut work, &mut out) {
            Ok(count) => {
                out.truncate(count);
                return Ok(out);
            }
            Err(Refusal::OutTooShort) if out.len() < MOST => out.resize(2 * out.len(), 0),
            Err(refusal) => return Err(refusal),
        }
    }
}
