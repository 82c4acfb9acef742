//! Writes the stored searches and the original's answers to them: `stored DIRECTORY` writes the files
//! `stdin` and `stdout` there, and prints what they hold.

use std::fs;
use std::path::Path;

use judge::stored;

fn main() -> std::io::Result<()> {
    let directory = std::env::args().nth(1).expect("a directory");
    let list = stored::searches();
    let output = stored::output(&list);
    fs::write(Path::new(&directory).join("stdin"), stored::input(&list))?;
    fs::write(Path::new(&directory).join("stdout"), &output)?;
    println!("{}", stored::summary(&output));
    Ok(())
}
