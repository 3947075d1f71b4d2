use gyomrelas::{path, work_need, Kind, Volume};
use std::io::Read;

fn main() -> Result<(), Box<dyn std::error::Error>> {
    let mut image = std::fs::read("samples/site.cfb")?;
    let mut work = vec![0; work_need(image.len())];
    let log = path("Site/log");

    // validated once; image and work buffer are the volume's until it is dropped
    let mut volume = Volume::open(&mut image, &mut work)?;
    for object in volume.objects()?.filter(|object| object.kind == Kind::Stream) {
        println!("{:6} {}", object.size, String::from_utf16_lossy(&object.path));
    }

    let size = volume.find(&log)?.size;
    volume.set_len(&log, size + 4)?;
    volume.overwrite(&log, size, b"end\n")?;

    let mut text = String::new();
    volume.stream(&log)?.read_to_string(&mut text)?;
    println!("{} lines", text.lines().count());
    Ok(())
}
