//! Random damage with a fixed seed.

use crate::compare::Seen;
use crate::damage::Target;
use crate::images;
use crate::random::Random;

/// A number that the environment gives, or the usual one.
fn given(name: &str, usual: u64) -> u64 {
    std::env::var(name).ok().and_then(|text| text.parse().ok()).unwrap_or(usual)
}

#[test]
fn the_reader_finds_the_group_that_the_library_answers() {
    let mut seen = Seen::default();
    // CFB_SEED=NUMBER and CFB_EACH=NUMBER are for longer runs
    let mut random = Random(given("CFB_SEED", 20_000));
    let each = given("CFB_EACH", 1_200);
    for (name, bytes) in images::all() {
        let made = name.contains("version") || name.contains("DIFAT");
        assert!(seen.compare(&name, &bytes).is_none() || !made, "{name} is refused");
        Seen::survey(&bytes);
        let target = Target::new(bytes);
        let each = if target.bytes.len() > 400_000 { each / 10 } else { each };
        for number in 0..each {
            let variant = target.variant(&mut random);
            seen.compare(&format!("{name}, variant {number}"), &variant);
            Seen::survey(&variant);
        }
    }
    seen.report("random damage");
    for answer in [0, 1].into_iter().chain(10..=18) {
        assert!(seen.count(answer) > 0, "answer {answer} was not seen");
    }
}

#[test]
fn noise_and_cut_headers_are_refused_alike() {
    let mut seen = Seen::default();
    let mut random = Random(7);
    let whole = images::filled(3);
    for number in 0..500 {
        let mut bytes: Vec<u8> =
            (0..random.pick(&[0, 1, 511, 512, 1_536, 4_096, 12_288])).map(|_| random.draw() as u8).collect();
        // half of them with the header of a real file
        let header = if number % 2 == 0 { random.pick(&[40, 76, 512]).min(bytes.len()) } else { 0 };
        bytes[..header].copy_from_slice(&whole[..header]);
        seen.compare(&format!("noise {number}"), &bytes);
        Seen::survey(&bytes);
    }
    seen.report("noise");
}
