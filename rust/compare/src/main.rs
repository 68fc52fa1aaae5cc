//! Compares the proved library, call by call and byte by byte, with the independent program over
//! random cases; and the labelling program and the depots program with the independent texts. Then
//! carts are sent home, and carts of two clearances are compared over one list.
//!
//!     compare [CASES] [SEED] [FIRST] [--label PATH] [--depots PATH] [--aloud]
//!
//! CASES cases are made from SEED, beginning with number FIRST. A case depends on SEED and its
//! number alone, so a difference is made again by running its number alone. `--label PATH`, or the
//! variable GRAINBODKIN_LABEL, names the labelling program, `--depots PATH` the depots program.
//! `--aloud` prints each number before its call, to find a call that does not come back. The status
//! is 0 only without a difference and, in a whole run, with everything reached.
mod asked;
mod carts;
mod case;
mod child;
mod depots;
mod drawings;
mod edits;
mod expected;
mod guard;
mod harms;
mod journeys;
mod lendings;
mod library;
mod lists;
mod making;
mod mapfiles;
mod maps;
mod options;
mod picturefiles;
mod places;
mod program;
mod random;
mod report;
mod stones;
mod streams;
mod tally;

use options::Options;
use std::process::ExitCode;
use tally::Tally;

/// So many differences are told in full.
const TOLD: u64 = 3;

fn main() -> ExitCode {
    let options = match Options::from_command_line() {
        Ok(options) => options,
        Err(message) => {
            eprintln!("compare: {message}");
            return ExitCode::from(2);
        }
    };
    println!("compare: seed {}", options.seed);
    let mut tally = Tally::new();
    let mut differing = 0;
    for index in options.first..options.first.saturating_add(options.cases) {
        if options.aloud {
            println!("case {index}");
        }
        if !one_case(&options, index, &mut tally, differing < TOLD) {
            differing += 1;
        }
    }
    tally.print();
    tally.print_stones();
    let mut faults = tally.strange.clone();
    if options.cases >= tally::WHOLE {
        tally.print_notes();
        faults.extend(tally.missing());
    }
    let runs = match &options.label {
        Some(path) => program::compare(path, options.seed),
        None => program::Runs::default(),
    };
    faults.extend(runs.faults);
    let depots = match &options.depots {
        Some(path) => depots::compare(path, options.seed),
        None => program::Runs::default(),
    };
    faults.extend(depots.faults);
    if options.cases >= tally::WHOLE {
        let journeys = journeys::run(options.seed);
        journeys.print();
        faults.extend(journeys.faults);
        let carts = carts::run(options.seed);
        carts.print();
        faults.extend(carts.faults);
    }
    for fault in &faults {
        println!("compare: {fault}");
    }
    let differences = differing + runs.differences + depots.differences;
    println!(
        "compare: {} cases, {} successes, {} refusals, {} runs of the labelling program, {} of the depots program, {differences} differences",
        tally.cases,
        tally.successes,
        tally.cases - tally.successes,
        runs.runs,
        depots.runs
    );
    let good = differences == 0 && faults.is_empty();
    ExitCode::from(u8::from(!good))
}

/// Whether library and independent program agree on one case.
fn one_case(options: &Options, index: u64, tally: &mut Tally, tell: bool) -> bool {
    let case = making::make(options.seed, index);
    let (seen, broken) = library::run(&case);
    tally.count(&case, &seen);
    let mut lines: Vec<String> = broken
        .iter()
        .map(|name| format!("a guard of {name} was changed"))
        .collect();
    match std::panic::catch_unwind(|| expected::expect(&case)) {
        Ok(expected) if expected == seen => {}
        Ok(expected) => lines.extend(report::differences(&expected, &seen)),
        Err(_) => lines.push("the independent program panicked".to_string()),
    }
    if tell && !lines.is_empty() {
        println!(
            "difference in case {index}, again by: compare 1 {} {index}",
            options.seed
        );
        for line in &lines {
            println!("  {line}");
        }
        print!("{}", report::describe(&case));
    }
    lines.is_empty()
}
