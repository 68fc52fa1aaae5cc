//! The depots program as it runs: streams of maps 64 by 64 and 256 by 256 from a file, its whole
//! run beside plain Rust's.
use crate::maps;
use std::fs::File;
use std::io::Result;
use std::path::Path;
use std::process::{Command, Stdio};
use std::time::Instant;

/// Rounds of each side; the quickest counts.
const ROUNDS: usize = 9;

/// Streams by name, with so many in a hundred crossings with a rock and no more than a list may
/// hold, each map drawn anew.
const STREAMS: [(&str, usize); 4] = [("empty", 0), ("few", 1), ("sparse", 5), ("dense", 30)];

/// A side, and so many maps of it a stream.
const SIDES: [(usize, usize); 2] = [(64, 4000), (256, 250)];

/// A stream's bytes.
fn stream(side: usize, maps: usize, hundredth: usize) -> Vec<u8> {
    let mut bytes = Vec::new();
    for seed in 1..=maps as u64 {
        bytes.extend(format!("P4\n{side} {side}\n").bytes());
        let rocks = maps::drawn(side, hundredth, seed);
        let rows = rocks.chunks(side).rev().flat_map(|row| row.chunks(8));
        bytes.extend(rows.map(|eight| eight.iter().fold(0, |byte, &rock| byte << 1 | rock as u8)));
    }
    bytes
}

/// A side: a program and the words after it.
type Side<'a> = (&'a Path, &'a [&'a str]);

fn command(side: Side, input: &Path) -> Result<Command> {
    let mut command = Command::new(side.0);
    command.args(side.1).stdin(File::open(input)?);
    Ok(command)
}

/// Seconds of one whole run, from the start of the program to its end.
fn seconds(side: Side, input: &Path) -> Result<f64> {
    let mut command = command(side, input)?;
    command.stdout(Stdio::null());
    let start = Instant::now();
    let status = command.status()?;
    assert!(status.success(), "{} ended with {status}", side.0.display());
    Ok(start.elapsed().as_secs_f64())
}

/// Seconds of the quickest run of each side.
fn quickest(proved: Side, plain: Side, input: &Path) -> Result<(f64, f64)> {
    let mut best = (f64::MAX, f64::MAX);
    for _ in 0..ROUNDS {
        best.0 = best.0.min(seconds(proved, input)?);
        best.1 = best.1.min(seconds(plain, input)?);
    }
    Ok(best)
}

/// Prints maps a second of the program and of plain Rust over each stream, and their ratio of
/// times. Both print the same text first.
pub fn times(program: &str) -> Result<()> {
    let this = std::env::current_exe()?;
    let (proved, plain): (Side, Side) = ((Path::new(program), &[]), (&this, &["plain-depots"]));
    let input = std::env::temp_dir().join(format!("depots-{}.pbm", std::process::id()));
    println!(
        "{:10}{:>6}{:>8}{:>16}{:>16}{:>8}",
        "stream", "side", "maps", "maps/s program", "maps/s plain", "ratio"
    );
    for (side, maps) in SIDES {
        for (name, hundredth) in STREAMS {
            std::fs::write(&input, stream(side, maps, hundredth))?;
            let text = |side| command(side, &input)?.output();
            assert_eq!(text(proved)?.stdout, text(plain)?.stdout, "{name}: texts");
            let best = quickest(proved, plain, &input)?;
            let a_second = |seconds: f64| maps as f64 / seconds;
            println!(
                "{name:10}{side:6}{maps:8}{:16.0}{:16.0}{:8.2}",
                a_second(best.0),
                a_second(best.1),
                best.0 / best.1
            );
        }
    }
    std::fs::remove_file(&input)
}
