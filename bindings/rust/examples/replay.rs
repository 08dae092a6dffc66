//! Replays the script on standard input: `cargo run --example replay < script`.

use std::io::{self, Read, Write};

fn main() -> io::Result<()> {
    let mut script = Vec::new();
    io::stdin().read_to_end(&mut script)?;
    io::stdout().write_all(&slack::replay(&script))
}
