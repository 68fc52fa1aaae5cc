//! The depots program against the independent run: streams of maps on its standard input, whole, in
//! pieces and byte by byte.
use crate::child::{output, Pieces};
use crate::program::Runs;
use crate::random::Random;
use crate::report::shortened;
use crate::streams::{stream, ENDINGS, INPUTS};
use independent::depots::{run, Depot, End, Run, MOST_MAPS};
use independent::labels::{ROCK, SHUT};
use std::collections::BTreeMap;
use std::path::Path;

/// So many runs with random streams, beside two for each named input.
const STREAMS: u64 = 350;

/// A run over the random streams reads at least so many maps.
const MAPS: usize = 10_000;

/// So many bytes at most are handed over one by one.
const ONE_BY_ONE: usize = 4_000;

/// So many differences are told in full.
const TOLD: u64 = 3;

/// Everything that runs have to reach, beside the endings of streams.
const KINDS: [&str; 20] = [
    "end: sums",
    "end: refused 1",
    "end: refused 7",
    "end: refused 12",
    "end: refused 13",
    "end: refused 14",
    "end: refused long, past the bytes of a map",
    "end: refused long, past the maps of a run",
    "end: refused after other maps",
    "line: over 4,096 open crossings",
    "line: depot on a rock",
    "line: depot shut",
    "line: all assured",
    "line: assured, and not assured with a drive",
    "line: assured, and without a drive",
    "line: all three kinds",
    "given: whole",
    "given: in pieces",
    "given: byte by byte",
    "input: longer than 65,536 bytes",
];

/// What was reached, and how often.
type Kinds = BTreeMap<String, u64>;

/// Runs the program over all inputs and compares its whole output.
pub fn compare(path: &Path, seed: u64) -> Runs {
    println!(
        "the depots program, again by: compare 0 {seed} --depots {}",
        path.display()
    );
    let mut runs = Runs::default();
    let mut kinds = Kinds::new();
    for (index, (name, make)) in INPUTS.iter().enumerate() {
        let input = make(&mut Random::of_case(!seed, u64::MAX - index as u64));
        let expected = run(&input);
        for cut in [Pieces::Whole, Pieces::Of(vec![piece(input.len())])] {
            tally(&mut kinds, &input, &expected, &cut);
            one_run(path, name, &input, &cut, &expected, &mut runs);
        }
    }
    let mut maps = 0;
    for index in 0..STREAMS {
        let mut random = Random::of_case(seed, u64::MAX / 2 - index);
        let (name, input) = stream(&mut random);
        let cut = pieces(&mut random, input.len());
        let expected = run(&input);
        count(&mut kinds, format!("stream: {name}"));
        tally(&mut kinds, &input, &expected, &cut);
        maps += expected.maps.len();
        one_run(path, name, &input, &cut, &expected, &mut runs);
    }
    println!("the depots program over {STREAMS} streams with {maps} maps, and what was reached:");
    for (kind, times) in &kinds {
        println!("{times:>8}  {kind}");
    }
    if maps < MAPS {
        runs.faults.push(format!("only {maps} maps in streams"));
    }
    let endings = ENDINGS.iter().map(|(name, _, _)| format!("stream: {name}"));
    for kind in KINDS.iter().map(|k| k.to_string()).chain(endings) {
        if !kinds.contains_key(&kind) {
            runs.faults
                .push(format!("the depots program's runs never had: {kind}"));
        }
    }
    runs
}

/// One byte, where the input is short enough, and else some two hundred pieces.
fn piece(length: usize) -> usize {
    if length <= ONE_BY_ONE {
        1
    } else {
        length / 200
    }
}

/// How a stream is handed over: in half of the runs at once, else in pieces of random sizes, or
/// byte by byte.
fn pieces(random: &mut Random, length: usize) -> Pieces {
    match random.below(10) {
        0..=4 => Pieces::Whole,
        5 => Pieces::Of(vec![piece(length)]),
        _ => {
            let most = length / 30 + 1;
            Pieces::Of((0..7).map(|_| random.between(1, most)).collect())
        }
    }
}

fn count(kinds: &mut Kinds, kind: String) {
    *kinds.entry(kind).or_insert(0) += 1;
}

/// The kind of a depot's line.
fn line(depot: &Depot) -> &'static str {
    match (depot.label, depot.numbers) {
        (ROCK, _) => "line: depot on a rock",
        (SHUT, _) => "line: depot shut",
        (_, [_, _, 0, 0]) => "line: all assured",
        (_, [_, _, _, 0]) => "line: assured, and not assured with a drive",
        (_, [_, _, 0, _]) => "line: assured, and without a drive",
        _ => "line: all three kinds",
    }
}

/// Counts what a run reaches.
fn tally(kinds: &mut Kinds, input: &[u8], run: &Run, pieces: &Pieces) {
    for depot in run.maps.iter().flatten() {
        count(kinds, line(depot).to_string());
        if depot.numbers[0] > 4_096 {
            count(kinds, "line: over 4,096 open crossings".to_string());
        }
    }
    let end = match run.end {
        End::Sums => "sums".to_string(),
        End::Refused(number) => format!("refused {number}"),
        End::Long if run.maps.len() == MOST_MAPS => {
            "refused long, past the maps of a run".to_string()
        }
        End::Long => "refused long, past the bytes of a map".to_string(),
    };
    count(kinds, format!("end: {end}"));
    if run.end != End::Sums && !run.maps.is_empty() {
        count(kinds, "end: refused after other maps".to_string());
    }
    let given = match pieces {
        Pieces::Whole => "whole",
        Pieces::Of(sizes) if sizes[..] == [1] => "byte by byte",
        Pieces::Of(_) => "in pieces",
    };
    count(kinds, format!("given: {given}"));
    if input.len() > 65_536 {
        count(kinds, "input: longer than 65,536 bytes".to_string());
    }
}

/// One run of the program compared.
fn one_run(path: &Path, name: &str, input: &[u8], cut: &Pieces, expected: &Run, runs: &mut Runs) {
    runs.runs += 1;
    let expected = expected.text();
    let seen = match output(path, input, cut) {
        Ok(seen) => seen,
        Err(message) => format!("no output: {message}").into_bytes(),
    };
    if seen == expected.as_bytes() {
        return;
    }
    runs.differences += 1;
    if runs.differences <= TOLD {
        println!("difference of the depots program, {name}, {cut:?}");
        println!("  input, {} bytes: {}", input.len(), shortened(input));
        tell(expected.as_bytes(), &seen);
    }
}

/// The first line that differs, by its number.
fn tell(expected: &[u8], seen: &[u8]) {
    let lines = |bytes: &[u8]| -> Vec<Vec<u8>> {
        bytes
            .split_inclusive(|&b| b == b'\n')
            .map(<[u8]>::to_vec)
            .collect()
    };
    let (want, got) = (lines(expected), lines(seen));
    let same = want.iter().zip(&got).take_while(|(a, b)| a == b).count();
    let shown = |lines: &[Vec<u8>]| match lines.get(same) {
        Some(line) => line.escape_ascii().to_string(),
        None => "nothing".to_string(),
    };
    println!(
        "  line {same}: independent {}, program {}",
        shown(&want),
        shown(&got)
    );
    println!("  lines: independent {}, program {}", want.len(), got.len());
}
