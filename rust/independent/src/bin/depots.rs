//! The independent run: maps from standard input, its text on standard output.
use std::io::{Read, Write};

fn main() -> std::io::Result<()> {
    let mut input = Vec::new();
    std::io::stdin().read_to_end(&mut input)?;
    let text = independent::depots::run(&input).text();
    std::io::stdout().write_all(text.as_bytes())
}
