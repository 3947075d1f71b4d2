//! How the time for a byte grows from the short images to the long ones of the same make and version.

use super::rows::{LIBRARY, RIVAL, Row};

pub fn table(major: u16, short: &[Row], long: &[Row]) {
    println!(
        "| version {major}: 8 MiB, then 64 MiB | library ns a byte | then | growth | rival ns a byte | then | growth |"
    );
    println!("|---|---|---|---|---|---|---|");
    for (short, long) in short.iter().zip(long) {
        println!("| {} | {} | {} |", short.name, columns(short, long, LIBRARY), columns(short, long, RIVAL));
    }
    println!();
}

fn columns(short: &Row, long: &Row, validator: usize) -> String {
    let [short, long] = [short, long].map(|row| row.ns_per_byte(validator));
    format!("{short:.4} | {long:.4} | {:.2}", long / short)
}
