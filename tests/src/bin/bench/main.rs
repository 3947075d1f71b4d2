//! bench                                  times the library and prints tables in Markdown
//! bench --validators [WHICH]...          prints the tables of the validators alone
//! bench --pulses                         prints the table of a long pulse stream alone
//! bench --opened                         prints the table of plain and opened calls alone
//! bench --list                           prints the makes of images with their numbers
//! bench --write FILE                     writes the file of the last table, and prints the sum of the bytes that its reads give
//! bench --image NUMBER FILE [WHICH]...   writes the image of this make, and prints its answer and its name
//!
//! WHICH is any of: --size 8 (MiB, or 64), --version 3 (or 4), --make NUMBER, each alone of its kind; --seed NUMBER for the
//! random parts of the images; --rounds NUMBER.

mod asked;
mod growth;
mod opened;
mod pulses;
mod rows;
mod times;
mod validators;

use asked::Asked;
use cfb_tests::bench::{SIZES, makes, many};

fn main() {
    let words: Vec<String> = std::env::args().skip(1).collect();
    let words: Vec<&str> = words.iter().map(String::as_str).collect();
    let wrong = match words[..] {
        [] => validators::tables(&Asked::default()) + pulses::table() + opened::table(),
        ["--validators", ref which @ ..] => validators::tables(&Asked::read(which)),
        ["--pulses"] => pulses::table(),
        ["--opened"] => opened::table(),
        ["--list"] => list(),
        ["--write", file] => {
            let image = many::image();
            write(file, &image);
            println!("{}", many::sum(&image));
            0
        }
        ["--image", number, file, ref which @ ..] => one(number, file, &Asked::read(which)),
        _ => panic!("see the head of this program's main.rs"),
    };
    std::process::exit((wrong > 0) as i32);
}

fn list() -> u32 {
    makes().enumerate().for_each(|(number, make)| println!("{number:2} {:2} {}", make.answer, make.name(SIZES[0])));
    0
}

/// Past the last make there is nothing to print.
fn one(number: &str, file: &str, asked: &Asked) -> u32 {
    if let Some(make) = makes().nth(number.parse().expect("a number")) {
        let scale = asked.scales().next().expect("a size and a version");
        write(file, &(make.image)(scale));
        println!("{} {}", make.answer, make.name(scale.size));
    }
    0
}

fn write(file: &str, image: &[u8]) {
    std::fs::write(file, image).expect("a file that can be written");
}
