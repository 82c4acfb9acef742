//! Prints the first list with its answers, and to standard error what the list reaches.

use judge::{count::Counts, list, text};

fn main() {
    let items = list::first();
    print!("{}", text::list(list::SEED, &items));
    eprintln!("seed {}", list::SEED);
    eprintln!("{}", Counts::of(&items));
}
