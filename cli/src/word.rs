//! What a word of the command is: its name, its help, and what it takes.

use crate::args::Args;
use crate::fault::Fault;

/// A word of the command.
pub struct Word {
    pub name: &'static str,
    /// What stands behind the name and its options, as the help shows it.
    pub operands: &'static str,
    /// How many operands there may be, at least and at most.
    pub count: (usize, usize),
    pub options: &'static [Opt],
    /// One line for the list of words.
    pub about: &'static str,
    /// The text of its own help.
    pub help: &'static str,
    pub run: fn(&Args) -> Result<(), Fault>,
}

/// An option of a word.
pub struct Opt {
    /// As it is typed, with its dashes.
    pub name: &'static str,
    /// What its value is called, where it has one.
    pub value: Option<&'static str>,
    pub about: &'static str,
}

/// The word of a name.
pub fn named<'w>(words: &'w [Word], name: &str) -> Result<&'w Word, Fault> {
    let found = words.iter().find(|word| word.name == name);
    found.ok_or_else(|| Fault::Usage(format!("there is no word `{name}`; `cfb --help` lists them")))
}
