//! The listing program: a table from standard input.

use std::io::{Read, Write};

fn main() {
    let mut bytes = Vec::new();
    std::io::stdin().read_to_end(&mut bytes).expect("bytes");
    std::io::stdout().write_all(second::listing::listing(&bytes).as_bytes()).expect("text");
}
