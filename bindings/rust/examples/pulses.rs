use gyomrelas::pulse::{self, Records, Ticks, Valve};
use gyomrelas::{overwrite, path, work_need};

fn main() -> Result<(), Box<dyn std::error::Error>> {
    let mut image = std::fs::read("samples/site.cfb")?;
    let mut work = vec![0; work_need(image.len())];
    let log = path("Site/log");

    // the log's last 16 bytes become the trailer of no records; the text before them stays
    overwrite(&mut image, &mut work, &log, 5000 - 16, &pulse::NO_RECORDS)?;

    // valve 12 was open for 2.5 ms, valve 3 for 40 ms
    pulse::add(&mut image, &mut work, &log, Valve(12), Ticks(25))?;
    pulse::add(&mut image, &mut work, &log, Valve(3), Ticks(400))?;

    let totals = pulse::summary(&image, &mut work, &log)?;
    let last = pulse::record(&image, &mut work, &log, Records(1))?;
    println!("{} pulses of {} ticks, the last of valve {}", totals.count.0, totals.total.0, last.valve.0);
    Ok(())
}
