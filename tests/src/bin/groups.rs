//! groups: reads from standard input what the gate's program `calls_run` reads, and prints what it must print, by the independent
//! calls.

use std::io::Read;

fn main() {
    let mut input = Vec::new();
    std::io::stdin().read_to_end(&mut input).expect("an input that can be read");
    print!("{}", cfb_tests::groups::lines(&input));
}
