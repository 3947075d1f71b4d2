use gyomrelas::{path, work_need, Volume};

fn main() -> Result<(), Box<dyn std::error::Error>> {
    let mut image = std::fs::read("samples/site.cfb")?;
    let mut work = vec![0; work_need(image.len())];
    let log = path("Site/log");
    let mut volume = Volume::open(&mut image, &mut work)?; // validated once, for all calls on it
    let size = volume.find(&log)?.size;
    volume.set_len(&log, size + 4)?;
    volume.overwrite(&log, size, b"end\n")?;
    println!("{} bytes", volume.find(&log)?.size);
    Ok(())
}
