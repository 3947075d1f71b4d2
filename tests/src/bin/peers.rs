//! peers FOLDER: writes images that the library made there, and beside each a folder of its name with the files and folders that it must hold.
//! For each it prints its name, its length, the number of its objects and what it is.

use cfb_tests::peers::images;
use std::path::Path;
use std::{env, fs};

fn main() {
    let folder = env::args_os().nth(1).expect("give a folder");
    let folder = Path::new(&folder);
    images::each(&mut |name, what, made| {
        fs::write(folder.join(format!("{name}.cfb")), made.image()).expect("a file that can be written");
        made.save(&folder.join(&name)).expect("files that can be written");
        println!("{name} {} {} {what}", made.image().len(), made.objects());
    });
}
