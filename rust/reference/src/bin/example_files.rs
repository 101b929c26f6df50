//! Writes the files of `examples/litmus` and `examples/counters`.

use reference::example_files;
use std::path::Path;
use std::{fs, io};

fn main() -> io::Result<()> {
    let folder = Path::new(env!("CARGO_MANIFEST_DIR")).join("../../examples");
    for file in example_files::all() {
        let path = folder.join(&file.path);
        fs::create_dir_all(path.parent().expect("it has a folder"))?;
        fs::write(path, file.text())?;
    }
    Ok(())
}
