//! A program run with an input on its standard input, through a pipe.
use std::io::{Read, Write};
use std::path::Path;
use std::process::{ChildStdin, Command, Stdio};
use std::time::Duration;

/// How an input is handed over: at once, or in pieces of these sizes, over and over, with a pause
/// after each, so that the program reads less than it asks for.
#[derive(Clone, Debug, PartialEq, Eq)]
pub enum Pieces {
    Whole,
    Of(Vec<usize>),
}

/// The program's whole output for an input. An end by a signal, or anything on standard error, is
/// no output.
pub fn output(path: &Path, input: &[u8], pieces: &Pieces) -> Result<Vec<u8>, String> {
    let mut child = Command::new(path)
        .stdin(Stdio::piped())
        .stdout(Stdio::piped())
        .stderr(Stdio::piped())
        .spawn()
        .map_err(|e| format!("{}: {e}", path.display()))?;
    let stdin = child.stdin.take().ok_or("no standard input")?;
    let mut stdout = child.stdout.take().ok_or("no standard output")?;
    let mut seen = Vec::new();
    std::thread::scope(|scope| {
        scope.spawn(|| feed(stdin, input, pieces));
        stdout.read_to_end(&mut seen).map_err(|e| e.to_string())
    })?;
    let end = child.wait_with_output().map_err(|e| e.to_string())?;
    match (end.status.code(), end.stderr.is_empty()) {
        (None, _) => Err(format!("{}", end.status)),
        (_, false) => Err(format!("on standard error: {}", end.stderr.escape_ascii())),
        _ => Ok(seen),
    }
}

/// Writes the input. The program may stop reading before the end; then the rest is not wanted.
fn feed(mut stdin: ChildStdin, mut input: &[u8], pieces: &Pieces) {
    let sizes = match pieces {
        Pieces::Whole => {
            let _ = stdin.write_all(input);
            return;
        }
        Pieces::Of(sizes) => sizes,
    };
    for &size in sizes.iter().cycle() {
        if input.is_empty() {
            return;
        }
        let (piece, rest) = input.split_at(size.clamp(1, input.len()));
        if stdin.write_all(piece).and_then(|()| stdin.flush()).is_err() {
            return;
        }
        std::thread::sleep(Duration::from_micros(if size == 1 { 20 } else { 150 }));
        input = rest;
    }
}
