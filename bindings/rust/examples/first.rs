use gyomrelas::{find, overwrite, path, read, set_len, work_need};

fn main() -> Result<(), Box<dyn std::error::Error>> {
    let mut image = std::fs::read("samples/site.cfb")?;
    let mut work = vec![0; work_need(image.len())];
    let log = path("Site/log");

    let size = find(&image, &mut work, &log)?.size;
    println!("{size} bytes");

    // add a line at the end
    set_len(&mut image, &mut work, &log, size + 4)?;
    overwrite(&mut image, &mut work, &log, size, b"end\n")?;

    let mut last = [0; 29];
    let count = read(&image, &mut work, &log, size - 25, &mut last)?;
    print!("{}", String::from_utf8_lossy(&last[..count]));
    Ok(())
}
