//! answer FILE...: the independent validator's answer for each file, and the listing of one that it accepts. Where the
//! library is linked, its answer stands behind, and whether it lists otherwise.

use cfb_tests::files::listing;

fn main() {
    for file in std::env::args().skip(1) {
        let image = std::fs::read(&file).expect("a file that can be read");
        let listed = listing(&image);
        let answer = listed.as_ref().err().unwrap_or(&0);
        println!("{answer}{} {file}", library(&image, listed.as_deref().unwrap_or("")));
        for line in listed.iter().flat_map(|text| text.lines()) {
            println!("  {line}");
        }
    }
}

#[cfg(feature = "library")]
fn library(image: &[u8], listed: &str) -> String {
    use cfb_tests::{calls::Call, library, volume::work_needed};
    let mut work = vec![0; work_needed(image.len())];
    let mut out = vec![0; listed.len()];
    let call = Call::List { out: out.clone() };
    let (answer, values) = library::call(&call, &mut image.to_vec(), &mut work, &mut out).expect("list is linked");
    let same = out == listed.as_bytes() && values[0] == listed.len() as u64;
    format!(" {answer}{}", if same { "" } else { ", another listing:" })
}

#[cfg(not(feature = "library"))]
fn library(_: &[u8], _: &str) -> &'static str {
    ""
}
