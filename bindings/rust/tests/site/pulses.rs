//! Pulse streams: sums, records, additions, and each refusal on its occasion.

use std::io::{self, ErrorKind};

use super::refusals::broken;
use super::{content, jets, log, sample, site};
use gyomrelas::pulse::{self, Pulse, PulseRefusal, Records, Ticks, TotalTicks, Totals, Valve};
use gyomrelas::{overwrite, path, set_len, work_need, Refusal};

const LOG: &str = "Site/log";
const JETS: &str = "Site/Jets";

fn pulse(valve: u16, ticks: u32) -> Pulse {
    Pulse { valve: Valve(valve), ticks: Ticks(ticks) }
}

fn totals(count: u32, total: u64) -> Totals {
    Totals { count: Records(count), total: TotalTicks(total) }
}

/// The bytes of a pulse stream.
fn stream(preamble: &[u8], pulses: &[Pulse]) -> Vec<u8> {
    let mut bytes = preamble.to_vec();
    for Pulse { valve, ticks } in pulses {
        bytes.extend(valve.0.to_le_bytes().into_iter().chain([0, 0]).chain(ticks.0.to_le_bytes()));
    }
    let (count, total) = (pulses.len() as u32, pulses.iter().map(|pulse| u64::from(pulse.ticks.0)).sum::<u64>());
    bytes.extend((16 + 8 * count).to_le_bytes().into_iter().chain(count.to_le_bytes()).chain(total.to_le_bytes()));
    bytes
}

/// Gives the sample's stream these bytes.
fn put(image: &mut [u8], work: &mut [u32], name: &str, bytes: &[u8]) {
    set_len(image, work, &path(name), bytes.len() as u64).expect("there is room");
    overwrite(image, work, &path(name), 0, bytes).expect("they end with the stream");
}

/// What every call answers that has these bytes in the stream Jets, and zero ticks to add.
fn all_refused(bytes: &[u8]) -> [PulseRefusal; 3] {
    let (mut image, mut work) = site();
    put(&mut image, &mut work, JETS, bytes);
    let (before, jets) = (image.clone(), path(JETS));
    let refusals = [
        pulse::summary(&image, &mut work, &jets).expect_err("no pulse stream"),
        pulse::record(&image, &mut work, &jets, Records(9)).expect_err("no pulse stream"),
        pulse::add(&mut image, &mut work, &jets, Valve(1), Ticks(0)).expect_err("no pulse stream"),
    ];
    assert_eq!(image, before);
    refusals
}

#[test]
fn a_stream_without_records() {
    let (mut image, mut work) = site();
    for preamble in [&b""[..], b"x", b"a preamble", &[0; 60]] {
        put(&mut image, &mut work, JETS, &[preamble, &pulse::NO_RECORDS].concat());
        assert_eq!(pulse::summary(&image, &mut work, &path(JETS)), Ok(totals(0, 0)));
        let none = pulse::record(&image, &mut work, &path(JETS), Records(0));
        assert_eq!(none, Err(PulseRefusal::NoRecord));
    }
    assert_eq!(stream(b"", &[]), pulse::NO_RECORDS);
}

#[test]
fn records_are_read_back() {
    let pulses = [pulse(12, 25), pulse(0, 1), pulse(u16::MAX, u32::MAX), pulse(3, 400)];
    for name in ["site.cfb", "site4.cfb"] {
        let (mut image, mut work) = sample(name);
        for preamble in 0..=64 {
            put(&mut image, &mut work, JETS, &stream(&vec![b'p'; preamble], &pulses));
            assert_eq!(pulse::summary(&image, &mut work, &path(JETS)), Ok(totals(4, 426 + u64::from(u32::MAX))));
            for (number, due) in (0..).zip(pulses) {
                assert_eq!(pulse::record(&image, &mut work, &path("SITE/JETS"), Records(number)), Ok(due));
            }
            for number in [4, 5, 1 << 29, u32::MAX] {
                let none = pulse::record(&image, &mut work, &path(JETS), Records(number));
                assert_eq!(none, Err(PulseRefusal::NoRecord));
            }
        }
    }
}

/// To the end of the last sector, and of the last mini sector: 26 comes then, and 41 and 40 before it. No pulse fades.
#[test]
fn additions_until_there_is_no_room() {
    for (file, name, size, room) in [
        ("site.cfb", LOG, 5000, 15),
        ("site.cfb", JETS, 70, 7),
        ("site4.cfb", LOG, 5000, 399),
        ("site4.cfb", JETS, 70, 7),
    ] {
        let (mut image, mut work) = sample(file);
        let (need, stream_path) = (work_need(image.len()), path(name));
        let preamble = content(&image, name)[..size - 16].to_vec();
        overwrite(&mut image, &mut work, &stream_path, preamble.len() as u64, &pulse::NO_RECORDS).expect("they fit");
        let mut pulses = Vec::new();
        for k in 0..room {
            let added = pulse(k as u16, if k % 3 == 0 { u32::MAX } else { 1 + k });
            work.fill(7);
            let done = pulse::add(&mut image, &mut work, &stream_path, added.valve, added.ticks);
            assert_eq!(done, Ok(()), "{file} {name} {k}");
            assert!(work[..need].iter().all(|&number| number == 0) && work[need..] == [7]);
            pulses.push(added);
            assert_eq!(content(&image, name), stream(&preamble, &pulses));
        }
        let sum = pulses.iter().map(|pulse| u64::from(pulse.ticks.0)).sum();
        assert_eq!(pulse::summary(&image, &mut work, &stream_path), Ok(totals(room, sum)));
        let before = image.clone();
        let mut add = |ticks| pulse::add(&mut image, &mut work, &stream_path, Valve(1), Ticks(ticks));
        assert_eq!(add(1), Err(PulseRefusal::File(Refusal::TooFewFree)), "{file} {name}");
        assert_eq!(add(0), Err(PulseRefusal::NoTicks));
        assert_eq!(image, before);
        // the other stream has the bytes that it had
        let (other, due) = if name == LOG { (JETS, jets()) } else { (LOG, log()) };
        assert_eq!(content(&image, other), due);
        let last = 8 * (room - 1) as u64 + preamble.len() as u64;
        overwrite(&mut image, &mut work, &stream_path, last + 2, &[1]).expect("within the stream");
        let wrong = pulse::add(&mut image, &mut work, &stream_path, Valve(1), Ticks(0));
        assert_eq!(wrong, Err(PulseRefusal::NotPulses));
    }
}

/// Fewer than 16 bytes, each field of the trailer off, a record of no ticks, and either byte of a zero field. The calls' own refusals
/// come behind that.
#[test]
fn what_is_no_pulse_stream() {
    let pulses = [pulse(12, 25), pulse(1, 300)];
    let right = stream(b"pre", &pulses);
    for length in 0..16 {
        assert_eq!(all_refused(&right[right.len() - length..]), [PulseRefusal::NotPulses; 3]);
    }
    // valve and preamble may be anything
    let may_be_anything = [0, 1, 2, 3, 4, 11, 12];
    for place in (0..right.len()).filter(|place| !may_be_anything.contains(place)) {
        for bit in [1, 0x80] {
            let mut bytes = right.clone();
            bytes[place] ^= bit;
            assert_eq!(all_refused(&bytes), [PulseRefusal::NotPulses; 3], "{place}");
        }
    }
    let no_ticks = stream(b"", &[pulse(12, 25), pulse(1, 0)]);
    assert_eq!(all_refused(&no_ticks), [PulseRefusal::NotPulses; 3]);
    // one record more than there are bytes for, and a count whose distance is right in 32 bits alone
    assert_eq!(all_refused(&stream(b"1234567", &[pulse(1, 1)])[8..]), [PulseRefusal::NotPulses; 3]);
    let mut wrapped = pulse::NO_RECORDS;
    wrapped[7] = 0x20;
    assert_eq!(all_refused(&wrapped), [PulseRefusal::NotPulses; 3]);
}

/// What every call is refused for comes before 40, 41 and 42.
#[test]
fn files_that_are_refused() {
    for (number, mut image) in broken() {
        let (_, mut work) = site();
        let before = image.clone();
        for name in [LOG, "Site", "gone"] {
            let name = path(name);
            assert_eq!(pulse::summary(&image, &mut work, &name).map_err(PulseRefusal::number), Err(number));
            let record = pulse::record(&image, &mut work, &name, Records(9));
            assert_eq!(record.map_err(PulseRefusal::number), Err(number));
            let add = pulse::add(&mut image, &mut work, &name, Valve(1), Ticks(0));
            assert_eq!(add.map_err(PulseRefusal::number), Err(number));
        }
        assert_eq!(image, before);
    }
    let (mut image, mut work) = site();
    let need = work_need(image.len());
    for (name, refusal) in [
        ("Site//log", Refusal::BadPath),
        ("Site/gone", Refusal::NotFound),
        ("Site/log/x", Refusal::StreamOnTheWay),
        ("Site", Refusal::NotAStream),
        ("", Refusal::NotAStream),
    ] {
        let (name, due) = (path(name), PulseRefusal::File(refusal));
        assert_eq!(pulse::summary(&image, &mut work, &name), Err(due));
        assert_eq!(pulse::record(&image, &mut work, &name, Records(0)), Err(due));
        assert_eq!(pulse::add(&mut image, &mut work, &name, Valve(1), Ticks(0)), Err(due));
    }
    work.fill(7);
    let short = pulse::summary(&image, &mut work[..need - 1], &path(LOG));
    assert_eq!(short, Err(PulseRefusal::File(Refusal::ShortWork)));
    let length = pulse::add(&mut image[1..], &mut work, &path(LOG), Valve(1), Ticks(0));
    assert_eq!(length, Err(PulseRefusal::File(Refusal::BadLength)));
    assert!(work.iter().all(|&number| number == 7));
}

#[test]
fn numbers_and_pulse_refusals_belong_together() {
    let own = [(40, PulseRefusal::NotPulses), (41, PulseRefusal::NoTicks), (42, PulseRefusal::NoRecord)];
    let files = Refusal::ALL.iter().map(|&refusal| (refusal.number(), PulseRefusal::from(refusal)));
    for (number, refusal) in files.chain(own) {
        assert_eq!((refusal.number(), PulseRefusal::from_number(number)), (number, Some(refusal)));
        assert!(refusal.to_string().starts_with(&format!("refused {number}: ")));
    }
    assert!([0, 25, 39, 43, u32::MAX].iter().all(|&number| PulseRefusal::from_number(number).is_none()));
}

#[test]
fn refusals_as_errors_of_std_io() {
    for (refusal, kind) in [
        (PulseRefusal::File(Refusal::NotFound), ErrorKind::NotFound),
        (PulseRefusal::File(Refusal::TooFewFree), ErrorKind::StorageFull),
        (PulseRefusal::NotPulses, ErrorKind::InvalidData),
        (PulseRefusal::NoTicks, ErrorKind::InvalidInput),
        (PulseRefusal::NoRecord, ErrorKind::InvalidInput),
    ] {
        let error = io::Error::from(refusal);
        assert_eq!(error.kind(), kind);
        let inner = error.get_ref().expect("the refusal");
        assert_eq!(inner.downcast_ref::<PulseRefusal>(), Some(&refusal));
    }
}
