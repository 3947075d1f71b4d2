use gyomrelas::{repair, validate, work_need};

fn main() -> Result<(), Box<dyn std::error::Error>> {
    let mut image = std::fs::read("samples/site.cfb")?;
    let mut work = vec![0; work_need(image.len())];

    // a cell of the FAT that stands for no sector, and should be free
    image[1020] = 5;
    if let Err(refusal) = validate(&image, &mut work) {
        println!("{refusal}");
        let mut spare = vec![0; image.len()];
        let changed = repair(&mut image, &mut work, &mut spare)?;
        println!("repaired: {changed}");
    }
    Ok(())
}
