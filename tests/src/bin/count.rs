//! count library FILE   validates a file in memory once, for tests/bench_counts, and prints the answer
//! count rival FILE     the same by the rival

use cfb_tests::volume::work_needed;
use cfb_tests::{library, rival};

fn main() {
    let words: Vec<String> = std::env::args().skip(1).collect();
    let [who, file] = &words[..] else { panic!("count library FILE, or count rival FILE") };
    let image = std::fs::read(file).expect("a file that can be read");
    let mut work = vec![1; work_needed(image.len())];
    let answer = match who.as_str() {
        "library" => library::validate(&image, &mut work),
        "rival" => rival::validate(&image, &mut work),
        _ => panic!("{who} is not known"),
    };
    println!("{answer}");
}
