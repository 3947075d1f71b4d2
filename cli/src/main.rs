//! `cfb`: compound files from the command line. Each word of the command is a file of `words`.

mod answers;
mod args;
mod edit;
mod fault;
mod help;
mod layout;
mod limits;
mod numbers;
mod output;
mod pending;
mod progress;
mod reader;
mod repaired;
mod source;
mod typed;
mod word;
mod words;

use std::env;
use std::ffi::OsString;
use std::process::ExitCode;

use args::Args;
use fault::Fault;
use word::Word;

/// The words of the command, in the order of the help.
const WORDS: &[Word] = &[
    words::check::WORD,
    words::ls::WORD,
    words::info::WORD,
    words::map::WORD,
    words::cat::WORD,
    words::extract::WORD,
    words::put::WORD,
    words::append::WORD,
    words::resize::WORD,
    words::mk::WORD,
    words::mkdir::WORD,
    words::rm::WORD,
    words::new::WORD,
    words::repair::WORD,
    words::pulses::WORD,
    words::pulse::WORD,
];

fn main() -> ExitCode {
    let typed: Vec<OsString> = env::args_os().skip(1).collect();
    match run(typed) {
        Ok(()) => ExitCode::SUCCESS,
        Err(fault) => {
            fault.tell();
            ExitCode::from(fault.status())
        }
    }
}

/// Runs the word that was typed first, with the rest.
fn run(mut typed: Vec<OsString>) -> Result<(), Fault> {
    if typed.is_empty() {
        return Err(Fault::Usage("a word is missing; `cfb --help` lists them".to_string()));
    }
    let first = typed.remove(0);
    let name = first.to_string_lossy();
    match &*name {
        "--help" | "-h" => help::program(WORDS),
        "--version" | "-V" => output::text(concat!("cfb ", env!("CARGO_PKG_VERSION"), "\n")),
        "help" => help::asked(WORDS, &typed),
        _ => run_word(word::named(WORDS, &name)?, typed),
    }
}

/// Runs a word, or prints its help.
fn run_word(word: &Word, typed: Vec<OsString>) -> Result<(), Fault> {
    let args = Args::parse(word, typed)?;
    if args.wants_help() { help::word(word) } else { (word.run)(&args) }
}
