//! Answers a drive sheet with the original search: standard input to standard output.

use std::io::{Read, Write};

fn main() -> std::io::Result<()> {
    let mut text = Vec::new();
    std::io::stdin().read_to_end(&mut text)?;
    std::io::stdout().write_all(judge::sheet::answer(&text).as_bytes())
}
