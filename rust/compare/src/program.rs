//! The labelling program against the independent text: random and damaged files on its standard
//! input, whole or in small pieces.
use crate::child::{output, Pieces};
use crate::mapfiles;
use crate::random::Random;
use crate::report::shortened;
use independent::text::{label_text, LONGEST};
use std::collections::BTreeMap;
use std::path::Path;

/// So many runs with random files, beside one for each named input.
const RANDOM_RUNS: u64 = 500;

/// So many differences are told in full.
const TOLD: u64 = 3;

#[derive(Default)]
pub struct Runs {
    pub runs: u64,
    pub differences: u64,
    pub faults: Vec<String>,
}

/// An input by its name.
type Input = (&'static str, fn(&mut Random) -> Vec<u8>);

const INPUTS: [Input; 19] = [
    ("empty input", |_| Vec::new()),
    ("the example", |_| b"P1\n4 3\n0010\n0100\n0000\n".to_vec()),
    ("65,536 bytes, a map", |_| padded(LONGEST)),
    ("65,535 bytes, a map", |_| padded(LONGEST - 1)),
    ("65,537 bytes, a map", |_| padded(LONGEST + 1)),
    ("65,536 bytes, a fault at the last", |_| faulty(LONGEST)),
    ("65,537 bytes, a fault at the last", |_| faulty(LONGEST + 1)),
    ("65,536 bytes of noise", |r| r.bytes(LONGEST)),
    ("65,537 bytes of noise", |r| r.bytes(LONGEST + 1)),
    ("300,000 bytes, a map", |_| padded(300_000)),
    ("65,536 bytes, a long comment", |_| {
        let comment = "c".repeat(LONGEST - 13);
        format!("P1 #{comment}\n2 1\n01").into_bytes()
    }),
    ("many comments", |_| {
        let comments = "#\n".repeat(32_000);
        format!("P1\n{comments}2 1\n01").into_bytes()
    }),
    ("64 by 64, full", |_| {
        let row = format!("{}\n", "1".repeat(64));
        format!("P1\n64 64\n{}", row.repeat(64)).into_bytes()
    }),
    ("64 by 64, packed", |r| {
        let sparse: Vec<u8> = (0..512).map(|_| r.byte() & r.byte() & r.byte()).collect();
        [&b"P4\n64 64\n"[..], &sparse].concat()
    }),
    ("256 by 256, full", |_| whole(65_536)),
    ("256 by 256, 8,192 rocks", |_| whole(8_192)),
    ("256 by 256, 8,193 rocks", |_| whole(8_193)),
    ("256 by 256, full, and a byte less", |_| {
        let mut bytes = whole(65_536);
        bytes.pop();
        bytes
    }),
    ("256 by 256, plain", |_| {
        let row = format!("{}\n", "0".repeat(256));
        format!("P1\n256 256\n{}", row.repeat(256)).into_bytes()
    }),
];

/// A raw map 256 by 256 whose first so many crossings in raster order are rocks.
pub fn whole(rocks: usize) -> Vec<u8> {
    let mut bytes = b"P4 256 256 ".to_vec();
    for first in (0..65_536).step_by(8) {
        let here = rocks.saturating_sub(first).min(8);
        bytes.push((0xFF00u16 >> here) as u8);
    }
    bytes
}

/// A plain map with blanks after it, so many bytes long.
fn padded(length: usize) -> Vec<u8> {
    let mut bytes = b"P1\n3 2\n101\n010\n".to_vec();
    bytes.resize(length, b' ');
    bytes
}

/// The same with a last byte that may not stand there.
fn faulty(length: usize) -> Vec<u8> {
    let mut bytes = padded(length - 1);
    bytes.push(b'x');
    bytes
}

/// Runs the program over all inputs and compares its whole output.
pub fn compare(path: &Path, seed: u64) -> Runs {
    println!(
        "the labelling program, again by: compare 0 {seed} --label {}",
        path.display()
    );
    let mut runs = Runs::default();
    let mut kinds = BTreeMap::new();
    for (index, (name, make)) in INPUTS.iter().enumerate() {
        for pieces in [false, true] {
            let mut random = Random::of_case(!seed, index as u64);
            let input = make(&mut random);
            one_run(path, name, &input, pieces, &mut runs, &mut kinds);
        }
    }
    for index in 0..RANDOM_RUNS {
        let mut random = Random::of_case(seed, u64::MAX - index);
        let (notes, input, _) = mapfiles::file(&mut random);
        let pieces = random.percent(30);
        one_run(
            path,
            &notes.join("; "),
            &input,
            pieces,
            &mut runs,
            &mut kinds,
        );
    }
    println!("the labelling program's outputs, by kind: {kinds:?}");
    for kind in [
        "labels",
        "refused 1",
        "refused 7",
        "refused 12",
        "refused 13",
        "refused 14",
        "refused 15",
        "refused long",
    ] {
        if !kinds.contains_key(kind) {
            runs.faults
                .push(format!("the labelling program never answered: {kind}"));
        }
    }
    runs
}

fn one_run(
    path: &Path,
    name: &str,
    input: &[u8],
    pieces: bool,
    runs: &mut Runs,
    kinds: &mut BTreeMap<String, u64>,
) {
    let expected = label_text(input);
    runs.runs += 1;
    let kind = match expected.strip_suffix('\n') {
        Some(line) if line.starts_with("refused") => line.to_string(),
        _ => "labels".to_string(),
    };
    *kinds.entry(kind).or_insert(0) += 1;
    let cut = if pieces {
        Pieces::Of(vec![input.len() / 100 + 1])
    } else {
        Pieces::Whole
    };
    let seen = match output(path, input, &cut) {
        Ok(seen) => seen,
        Err(message) => format!("no output: {message}").into_bytes(),
    };
    if seen == expected.as_bytes() {
        return;
    }
    runs.differences += 1;
    if runs.differences <= TOLD {
        println!("difference of the labelling program, {name}, in pieces: {pieces}");
        println!("  input, {} bytes: {}", input.len(), shortened(input));
        println!("  independent: {}", expected.as_bytes().escape_ascii());
        println!("  program:     {}", seen.escape_ascii());
    }
}
