//! The calls on samples/site.cfb: a storage Site with the streams log (5,000 bytes) and Jets (70 bytes), no sector and no
//! mini sector free. What holds for any image is tried on samples/nested.cfb too, and on samples/site4.cfb, which has the
//! same objects in version 4. Fresh images are written over noise, and over these; what is repaired is one of them, bent.

mod created;
mod edits;
mod fresh;
mod letters;
mod objects;
mod opened;
mod paging;
mod plans;
mod pulses;
mod queries;
mod readme;
mod refusals;
mod repaired;
mod sizes;
mod streams;
mod versions;

use gyomrelas::{list, path, read, work_need};

/// A sample, and a work buffer with one number more than needed, full of something else than zero.
fn sample(name: &str) -> (Vec<u8>, Vec<u32>) {
    let image = std::fs::read(format!("../../samples/{name}")).expect("the sample is there");
    let work = vec![7; work_need(image.len()) + 1];
    (image, work)
}

fn site() -> (Vec<u8>, Vec<u32>) {
    sample("site.cfb")
}

/// So many bytes of a line repeated.
fn text(line: &str, count: usize) -> Vec<u8> {
    line.bytes().cycle().take(count).collect()
}

fn log() -> Vec<u8> {
    text("line 7 of the site's log\n", 5000)
}

fn jets() -> Vec<u8> {
    text("jet 12 opens\n", 70)
}

/// The listing, which has fewer than 10,000 bytes.
fn listed(image: &[u8]) -> String {
    let mut work = vec![0; work_need(image.len())];
    let mut out = vec![0; 10_000];
    let count = list(image, &mut work, &mut out).expect("a listing");
    String::from_utf8_lossy(&out[..count]).into_owned()
}

/// All bytes of a stream, which has fewer than 10,000.
fn content(image: &[u8], name: &str) -> Vec<u8> {
    let mut work = vec![0; work_need(image.len())];
    let mut out = vec![0; 10_000];
    let count = read(image, &mut work, &path(name), 0, &mut out).expect("a stream");
    out.truncate(count);
    out
}
