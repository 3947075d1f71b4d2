//! The answers of the library in plain words: what each means, and what can be done.

/// The meaning of an answer that is a refusal, and what can be done.
pub fn of(number: u32) -> (&'static str, &'static str) {
    let found = ANSWERS.iter().find(|(known, ..)| *known == number);
    found.map_or(UNKNOWN, |(_, meaning, advice)| (meaning, advice))
}

const UNKNOWN: (&str, &str) = ("an answer that this program does not know", "A newer `cfb` may know it.");

const BACKUP: &str =
    "`cfb repair` cannot settle this; take the file from a backup, or read it with a more lenient program.";

const TRY_REPAIR: &str = "`cfb check -v FILE` says where, and `cfb repair -n FILE` whether it can be repaired.";

/// What can be done where a repair would leave a rule broken. To try a repair is no advice there.
pub const UNREPAIRED: &str = "\
A repair would leave this broken, so the file stays as it is; `cfb check -v FILE` says what is broken now.";

const ANSWERS: &[(u32, &str, &str)] = &[
    (
        1,
        "a compound file has no such length",
        "It has a multiple of 512 bytes from 1536 to 67108864; in version 4 a multiple of 4096 from 12288.",
    ),
    (2, "the memory lent to the library was too short", "This is a mistake in `cfb`; please report it."),
    (10, "the header is not that of a compound file", "It may be another kind of file, or its start is damaged."),
    (11, "the sectors of the FAT or of the DIFAT are not listed as they must be", BACKUP),
    (12, "a cell of the FAT names a sector that is not there, or one behind the last sector is not free", TRY_REPAIR),
    (13, "the directory is not one unbroken chain of sectors", BACKUP),
    (14, "a directory entry has a field with a value that it cannot have", TRY_REPAIR),
    (15, "the trees of names are out of order, miss an object, or have wrong colours", TRY_REPAIR),
    (16, "the mini FAT or the mini stream is not as it must be", TRY_REPAIR),
    (17, "a stream's chain is broken, or is longer or shorter than its size", BACKUP),
    (18, "a sector has two owners, or has none and is not free", TRY_REPAIR),
    (
        20,
        "no object can have this path",
        "Names are parted by `/`, have 1 to 31 characters, and none of `\\`, `:`, `!` and the zero character.",
    ),
    (21, "there is nothing of that name", "`cfb ls FILE` lists what is there; `cfb mkdir` makes a storage."),
    (22, "a stream stands on the way, where a storage is needed", "`cfb ls -l FILE` marks storages with D."),
    (23, "that is a storage, and a stream is needed", "`cfb ls -l FILE` marks streams with F."),
    (24, "that is behind the stream's end", "`cfb resize` makes a stream longer."),
    (
        26,
        "too few sectors or mini sectors are free",
        "`cfb info FILE` counts them. Remove something, or use `cfb new` for a larger file: none ever grows.",
    ),
    (27, "the listing is longer than 64 MiB", "The file has too many objects that are nested too deeply."),
    (28, "the storage is not empty", "`cfb rm -r` removes all that is below it, too."),
    (
        29,
        "something is there already",
        "Small and capital letters are the same. `cfb put` writes to a stream that is there.",
    ),
    (
        30,
        "the directory has no blank entry for another object",
        "Remove something, or use `cfb new --entries` for a file with more of them.",
    ),
    (31, "the root cannot be removed", "Name a storage or a stream."),
    (
        32,
        "a file of that size cannot have the parts that are asked for",
        "Ask for fewer entries or a smaller mini stream, or for a larger file; the version is 3 or 4.",
    ),
    (33, "that entry is no stream", "`cfb ls -l FILE` marks streams with F."),
    (
        40,
        "that is no pulse stream: its trailer or one of its records is not right",
        "`cfb pulse --help` says how a stream becomes one.",
    ),
    (41, "a pulse of no ticks is not added", "A tick is 0.1 ms; give 1 at least."),
    (42, "there is no record of that number", "`cfb pulses` counts them."),
];

#[cfg(test)]
mod tests {
    use gyomrelas::Refusal;

    #[test]
    fn every_answer_has_words() {
        let own = Refusal::ALL.iter().map(|refusal| refusal.number());
        for number in own.chain([40, 41, 42]) {
            assert_ne!(super::of(number), super::UNKNOWN, "{number}");
        }
    }
}
