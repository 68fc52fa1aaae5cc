//! Benchmarks of the proved library beside plain safe Rust of the same method, same run, same
//! input.
//!
//!     bench
//!         asserts that both sides agree on every row, then prints each row's times and their ratio
//!     bench rows
//!         the rows: call, side, map
//!     bench one CALL SIDE MAP WHICH COUNT
//!         makes one side's call so many times, for a profile; WHICH is library, plain, or another
//!         plain method: block, to enter and clear; stack, to label; whole, to sweep; looking, to
//!         measure
//!     bench counted CALL...
//!         makes each row's call once and nine times, on every side, with marks between, for a
//!         count of instructions; of these calls alone where any are named
//!     bench show MAP SIDE
//!         a map, its labels, their numbers and that of its sweeps
//!     bench most SIDE
//!         a map of this side that takes as many sweeps as any that a search finds
//!     bench depots PROGRAM
//!         maps a second of the depots program's whole run beside plain Rust's
//!     bench plain-depots
//!         that plain Rust: maps from standard input
// The calls take what document 01 lends them.
#![allow(clippy::too_many_arguments)]

mod calls;
mod input;
mod layer;
mod library;
mod maps;
mod plain;
mod room;
mod searching;
mod streams;
mod timing;

use calls::{
    clear_again, enter_again, look_again, repeat, stack_again, whole_again, Answer, Call, CALLS,
};
use input::Input;
use layer::Layer;
use library::Library;
use plain::{Block, Plain};
use room::Room;
use std::process::ExitCode;

const SIDES: [usize; 6] = [8, 16, 32, 64, 128, 256];

/// Up to this side a call's other plain method is made too: past it looking from each crossing, and
/// sweeping whole maps, take too long to be counted.
const MOST_OTHER: usize = 64;

fn main() -> ExitCode {
    let words: Vec<String> = std::env::args().skip(1).collect();
    let words: Vec<&str> = words.iter().map(String::as_str).collect();
    let done = match words[..] {
        [] => times(),
        ["rows"] => rows(),
        ["counted", ..] => counted(&words[1..]),
        ["one", call, side, map, which, count] => one(call, side, map, which, count),
        ["show", map, side] => show(map, side),
        ["most", side] => self::side(side).and_then(searching::most),
        ["depots", program] => streams::times(program).map_err(told).ok(),
        ["plain-depots"] => plain::depots::run(std::io::stdin().lock(), std::io::stdout().lock())
            .map_err(told)
            .ok(),
        _ => None,
    };
    if done.is_none() {
        eprintln!(
            "usage: bench [rows | counted CALL... | one CALL SIDE MAP library|plain|block|stack|whole|looking COUNT | show MAP SIDE | most SIDE | depots PROGRAM | plain-depots]"
        );
        return ExitCode::FAILURE;
    }
    ExitCode::SUCCESS
}

/// Says why reading, writing or a program's start failed.
fn told(error: std::io::Error) {
    eprintln!("bench: {error}");
}

/// Every row: a call's name, the call, a side and a map's name.
fn each_row(mut row: impl FnMut(&str, Call, usize, &str)) {
    for (name, call) in CALLS {
        for side in SIDES {
            for map in call.maps().iter().filter(|map| maps::fits(map, side)) {
                row(name, call, side, map);
            }
        }
    }
}

/// The list of rows.
fn rows() -> Option<()> {
    each_row(|name, _, side, map| println!("{name} {side} {map}"));
    Some(())
}

/// A side's length within the limit.
fn side(word: &str) -> Option<usize> {
    word.parse().ok().filter(|side| (1..=256).contains(side))
}

/// The table of times. Nothing is timed before both sides agreed on every row.
fn times() -> Option<()> {
    let mut rows = 0;
    each_row(|name, call, side, map| {
        agree(name, call, &input(map, side), map);
        rows += 1;
    });
    println!("library and plain Rust agree on {rows} rows");
    println!(
        "{:10}{:>5}  {:13}{:>8}{:>12}{:>12}{:>8}",
        "call", "side", "map", "refusal", "ns library", "ns plain", "ratio"
    );
    each_row(|name, call, side, map| {
        let input = input(map, side);
        let refusal = agree(name, call, &input, map).refusal();
        let (library, plain) = timing::both(call, &input);
        let ratio = library / plain;
        println!("{name:10}{side:5}  {map:13}{refusal:8}{library:12.0}{plain:12.0}{ratio:8.2}");
    });
    println!("labelling crossing by crossing, ns");
    each_row(|_, call, side, map| {
        if call == Call::Label && side <= MOST_OTHER {
            println!(
                "{side:5}  {map:13}{:12.0}",
                timing::stack(&input(map, side))
            );
        }
    });
    Some(())
}

fn input(map: &str, side: usize) -> Input {
    Input::new(map, side).expect("a row names a map")
}

/// Asserts that both sides give the same answer and leave the same memory, and hands the answer
/// back.
fn agree(name: &str, call: Call, input: &Input, map: &str) -> Answer {
    let (library, library_room) = after::<Library>(call, input);
    let (plain, plain_room) = after::<Plain>(call, input);
    assert_eq!(library, plain, "{name} {} {map}: answers", input.side);
    assert_eq!(library_room, plain_room, "{name} {} {map}", input.side);
    if let Some((which, other)) = other(call, input.side) {
        let mut room = Room::new(input);
        assert_eq!(
            (library, library_room),
            (other(input, &mut room, 2), room),
            "{name} {} {map}: {which}",
            input.side
        );
    }
    library
}

/// A call so many times over, into a room.
type Method = fn(&Input, &mut Room, usize) -> Answer;

/// A call's other plain method and its name: block moves to enter and clear, a stack to label,
/// whole maps to sweep, looking from each crossing to measure. No other call has one, and none on a large map.
fn other(call: Call, side: usize) -> Option<(&'static str, Method)> {
    if side > MOST_OTHER {
        return None;
    }
    match call {
        Call::Enter => Some(("block", enter_again::<Block>)),
        Call::Clear => Some(("block", clear_again::<Block>)),
        Call::Label => Some(("stack", stack_again)),
        Call::Sweeps => Some(("whole", whole_again)),
        Call::Measure => Some(("looking", look_again)),
        _ => None,
    }
}

fn after<L: Layer>(call: Call, input: &Input) -> (Answer, Room) {
    let mut room = Room::new(input);
    (repeat::<L>(call, input, &mut room, 2), room)
}

/// One side's call so many times, where the side has it.
fn made(call: Call, input: &Input, which: &str, count: usize) -> Option<Answer> {
    let mut room = Room::new(input);
    match which {
        "library" => Some(repeat::<Library>(call, input, &mut room, count)),
        "plain" => Some(repeat::<Plain>(call, input, &mut room, count)),
        _ => {
            let (_, other) = other(call, input.side).filter(|o| o.0 == which)?;
            Some(other(input, &mut room, count))
        }
    }
}

/// One side's call so many times.
fn one(call: &str, side: &str, map: &str, which: &str, count: &str) -> Option<()> {
    let input = Input::new(map, self::side(side)?)?;
    made(Call::named(call)?, &input, which, count.parse().ok()?)?;
    Some(())
}

/// Where a count of instructions ends, and the next begins.
#[inline(never)]
#[no_mangle]
pub extern "C" fn bench_mark(which: u64) {
    std::hint::black_box(which);
}

/// Every row's call on every side, once and then nine times, between marks: the difference is eight
/// calls.
fn counted(calls: &[&str]) -> Option<()> {
    each_row(|name, call, side, map| {
        if !calls.is_empty() && !calls.contains(&name) {
            return;
        }
        let input = input(map, side);
        for which in ["library", "plain"]
            .into_iter()
            .chain(other(call, side).map(|o| o.0))
        {
            made(call, &input, which, 1);
            bench_mark(0);
            made(call, &input, which, 1);
            bench_mark(1);
            made(call, &input, which, 9);
            bench_mark(2);
            println!("{name} {side} {map} {which}");
        }
    });
    Some(())
}

/// A map, and beneath it its labels: . open, # rock, o shut.
fn show(map: &str, side: &str) -> Option<()> {
    let side = self::side(side)?;
    let rocks = maps::rocks(map, side)?;
    let input = Input::new(map, side)?;
    let mut labels = vec![0; side * side];
    let (list, n, cart) = (&input.list, input.list.len(), input.clearance);
    let swept = Library::sweeps(list, n, side, side, cart, &mut labels);
    let counts = Library::label(list, n, side, side, cart, &mut labels);
    println!("{}", maps::show(&rocks, side));
    for row in labels.chunks(side).rev() {
        let signs = row.iter().map(|&b| ['.', '#', 'o'][b as usize]);
        println!("{}", signs.collect::<String>());
    }
    println!("{counts:?}");
    println!("{swept:?}");
    println!("s, d {:?} {:?}", input.s, input.d);
    println!("home, place {:?} {:?}", input.home, input.place);
    Some(())
}
