//! The options and operands that were typed behind a word.

use std::ffi::{OsStr, OsString};
use std::path::Path;

use crate::fault::Fault;
use crate::numbers;
use crate::typed::units;
use crate::word::{Opt, Word};

/// What was typed, sorted by what the word takes.
#[derive(Debug)]
pub struct Args {
    options: Vec<(&'static str, OsString)>,
    operands: Vec<OsString>,
    help: bool,
}

impl Args {
    /// Takes options and operands apart. Behind `--` everything is an operand.
    pub fn parse(word: &Word, typed: Vec<OsString>) -> Result<Args, Fault> {
        let mut args = Args { options: Vec::new(), operands: Vec::new(), help: false };
        let mut typed = typed.into_iter();
        let mut only_operands = false;
        while let Some(next) = typed.next() {
            let text = next.to_string_lossy().into_owned();
            if only_operands || !text.starts_with('-') || text == "-" {
                args.operands.push(next);
            } else if text == "--" {
                only_operands = true;
            } else if text == "--help" || text == "-h" {
                args.help = true;
            } else {
                let (option, value) = option(word, &text, &mut typed)?;
                args.options.push((option.name, value));
            }
        }
        if !args.help {
            counted(word, args.operands.len())?;
        }
        Ok(args)
    }

    /// Whether `--help` was typed.
    pub fn wants_help(&self) -> bool {
        self.help
    }

    /// Whether an option was typed.
    pub fn has(&self, name: &str) -> bool {
        self.options.iter().any(|(typed, _)| *typed == name)
    }

    /// The number that an option was given; the last, where it was typed more than once.
    pub fn number(&self, name: &str) -> Result<Option<u64>, Fault> {
        let given = self.options.iter().rev().find(|(typed, _)| *typed == name);
        given.map(|(_, value)| numbers::parse(name, &text(name, value)?)).transpose()
    }

    /// The value that an option was given; the last, where it was typed more than once.
    pub fn value(&self, name: &str) -> Option<&OsStr> {
        let given = self.options.iter().rev().find(|(typed, _)| *typed == name);
        given.map(|(_, value)| value.as_os_str())
    }

    /// All operands.
    pub fn operands(&self) -> impl Iterator<Item = &OsStr> {
        self.operands.iter().map(OsString::as_os_str)
    }

    /// The operand of a place, as the name of a file. Their count was tested before.
    pub fn file(&self, place: usize) -> &Path {
        Path::new(&self.operands[place])
    }

    /// The operand of a place, as text.
    pub fn text(&self, place: usize) -> Result<String, Fault> {
        text("the operand", &self.operands[place])
    }

    /// The operand of a place, as a number.
    pub fn number_at(&self, place: usize, what: &str) -> Result<u64, Fault> {
        numbers::parse(what, &self.text(place)?)
    }

    /// The operand of a place, as a path within a compound file.
    pub fn path(&self, place: usize) -> Result<Vec<u16>, Fault> {
        units(&self.text(place)?)
    }
}

/// An option of the word, with its value: behind `=`, or the next that was typed.
fn option<'w>(
    word: &'w Word,
    text: &str,
    typed: &mut impl Iterator<Item = OsString>,
) -> Result<(&'w Opt, OsString), Fault> {
    let (name, value) = match text.split_once('=') {
        Some((name, value)) => (name, Some(OsString::from(value))),
        None => (text, None),
    };
    let known = word.options.iter().find(|option| option.name == name);
    let option = known
        .ok_or_else(|| wrong(word, format!("`{name}` is no option of it (behind `--` it would be an operand)")))?;
    match (option.value, value) {
        (None, None) => Ok((option, OsString::new())),
        (None, Some(_)) => Err(wrong(word, format!("`{name}` takes no value"))),
        (Some(_), Some(value)) => Ok((option, value)),
        (Some(_), None) => match typed.next() {
            Some(value) => Ok((option, value)),
            None => Err(wrong(word, format!("the value of `{name}` is missing"))),
        },
    }
}

/// Whether there are as many operands as the word takes.
fn counted(word: &Word, count: usize) -> Result<(), Fault> {
    let (least, most) = word.count;
    if count < least {
        Err(wrong(word, "an operand is missing".to_string()))
    } else if count > most {
        Err(wrong(word, "there is an operand too many".to_string()))
    } else {
        Ok(())
    }
}

/// A wrong use of a word.
fn wrong(word: &Word, what: String) -> Fault {
    Fault::Usage(format!("{}: {what}; `cfb {} --help` shows how it is used", word.name, word.name))
}

/// Text, where it is text.
fn text(what: &str, typed: &OsStr) -> Result<String, Fault> {
    typed.to_str().map(str::to_string).ok_or_else(|| Fault::Usage(format!("{what} is not UTF-8 text")))
}
