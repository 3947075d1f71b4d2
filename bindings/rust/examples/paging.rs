use gyomrelas::{path, work_need, View};
use std::io::{Read, Seek, SeekFrom};

fn main() -> Result<(), Box<dyn std::error::Error>> {
    let image = std::fs::read("samples/site.cfb")?;
    let mut work = vec![0; work_need(image.len())];

    // validates nothing; every call of a view does, as the plain call does
    let view = View::open(&image);
    let log = view.find(&mut work, &path("Site/log"))?;

    let mut cursor = view.cursor(&mut work, log);
    let mut page = [0; 1024];
    loop {
        let count = cursor.read(&mut page)?;
        if count == 0 {
            break;
        }
        println!("{count} bytes, up to {} of {}", cursor.position(), log.size);
    }

    // the last line again
    cursor.seek(SeekFrom::End(-25))?;
    let count = cursor.read(&mut page)?;
    print!("{}", String::from_utf8_lossy(&page[..count]));
    Ok(())
}
