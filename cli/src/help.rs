//! The texts of `--help`.

use std::ffi::OsString;

use crate::fault::{Fault, STATUSES};
use crate::output;
use crate::word::{self, Opt, Word};

const HEAD: &str = "\
cfb - compound files (MS-CFB, versions 3 and 4) from the command line

usage: cfb WORD [OPTION..] OPERAND..
       cfb WORD --help, cfb --help, cfb --version

words:
";

const REST: &str = "
A PATH within a file is typed as `cfb ls` prints it: names parted by `/`, and `\\` with four digits of base 16 for a
character that does not print. Quote it, so that the shell leaves a `\\` alone. Small and capital letters are the same.
Behind `--` nothing is an option.

An edit is made in memory, written to a new file beside the old one (`.FILE.cfb-new`), synced, and renamed over it: a
refusal, a full disk or a power cut leaves the old file whole. Symbolic links are followed. The new file has the old
one's permissions, and its owner where the system allows it; it is a new inode, so other hard links keep the old
content, and extended attributes are not taken over. Of two edits of one file the second waits, ten seconds at most.
An edit that is killed may leave `.FILE.cfb-new` behind; the next edit of the file removes it.

exit status:
";

/// The program's help.
pub fn program(words: &[Word]) -> Result<(), Fault> {
    let mut text = HEAD.to_string();
    for word in words {
        text.push_str(&format!("  {:<9}{}\n", word.name, word.about));
    }
    text.push_str(REST);
    text.push_str(STATUSES);
    output::text(&text)
}

/// `cfb help`, with a word or without.
pub fn asked(words: &[Word], typed: &[OsString]) -> Result<(), Fault> {
    match typed {
        [] => program(words),
        [name] => self::word(word::named(words, &name.to_string_lossy())?),
        _ => Err(Fault::Usage("help: one word at most".to_string())),
    }
}

/// The help of a word.
pub fn word(word: &Word) -> Result<(), Fault> {
    let options: String = word.options.iter().map(|option| format!(" [{}]", shown(option))).collect();
    let mut text = format!("usage: cfb {}{options} {}\n\n{}\n", word.name, word.operands, word.help);
    for (number, option) in word.options.iter().enumerate() {
        let head = if number == 0 { "\noptions:\n" } else { "" };
        text.push_str(&format!("{head}  {:<16}{}\n", shown(option), option.about));
    }
    text.push_str("\nexit status:\n");
    text.push_str(STATUSES);
    output::text(&text)
}

/// An option with the name of its value.
fn shown(option: &Opt) -> String {
    match option.value {
        Some(value) => format!("{} {value}", option.name),
        None => option.name.to_string(),
    }
}
