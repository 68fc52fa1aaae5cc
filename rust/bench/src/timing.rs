//! Times: both sides in turn, many short rounds, the quickest round of each.
use crate::calls::{repeat, stack_again, Call};
use crate::input::Input;
use crate::layer::Layer;
use crate::library::Library;
use crate::plain::Plain;
use crate::room::Room;
use std::time::Instant;

/// Rounds of each side.
const ROUNDS: usize = 200;

/// A round makes so many calls that it lasts about so many nanoseconds.
const ROUND: f64 = 30_000.0;

/// Nanoseconds a call, of the library and of plain Rust.
pub fn both(call: Call, input: &Input) -> (f64, f64) {
    let mut room = Room::new(input);
    let times = (ROUND / round::<Plain>(call, input, &mut room, 20)).clamp(1.0, 1000.0) as usize;
    let mut best = (f64::MAX, f64::MAX);
    for _ in 0..ROUNDS {
        best.0 = best.0.min(round::<Library>(call, input, &mut room, times));
        best.1 = best.1.min(round::<Plain>(call, input, &mut room, times));
    }
    best
}

fn round<L: Layer>(call: Call, input: &Input, room: &mut Room, times: usize) -> f64 {
    let start = Instant::now();
    repeat::<L>(call, input, room, times);
    start.elapsed().as_nanos() as f64 / times as f64
}

/// Nanoseconds a labelling crossing by crossing.
pub fn stack(input: &Input) -> f64 {
    let mut room = Room::new(input);
    let mut best = f64::MAX;
    for _ in 0..ROUNDS {
        let start = Instant::now();
        stack_again(input, &mut room, 4);
        best = best.min(start.elapsed().as_nanos() as f64 / 4.0);
    }
    best
}
