use gyomrelas::{create_stream, format, overwrite, path, set_len, work_need, Plan};

fn main() -> Result<(), Box<dyn std::error::Error>> {
    // 64 KiB with room for ten objects; those of fewer than 4,096 bytes have up to 2,000 together
    let mut image = vec![0; 65_536];
    format(&mut image, Plan::for_size(3, 65_536, 10, 2_000)?)?;

    let mut work = vec![0; work_need(image.len())];
    let note = path("note");
    create_stream(&mut image, &mut work, &note)?;
    set_len(&mut image, &mut work, &note, 6)?;
    overwrite(&mut image, &mut work, &note, 0, b"hello\n")?;
    std::fs::write("target/fresh.cfb", &image)?;
    Ok(())
}
