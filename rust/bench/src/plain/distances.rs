//! Clear distances of one crossing and of the whole map.
use super::limits::*;

/// The hops to the first closed crossing, the crossing itself being looked at first, or none.
fn first_closed(mut along: impl Iterator<Item = u8>) -> u16 {
    along.position(|b| b != OPEN).map_or(NONE, |k| k as u16)
}

/// The four distances of (x, y), east, south, west, north: looks along its row and its column.
pub fn four(s: &[u8], w: usize, x: usize, y: usize) -> [u16; 4] {
    let row = &s[y * w..(y + 1) * w];
    let column = |y: usize| s[y * w + x];
    [
        first_closed(row[x..].iter().copied()),
        first_closed((0..=y).rev().map(column)),
        first_closed(row[..=x].iter().rev().copied()),
        first_closed((y..s.len() / w).map(column)),
    ]
}

/// A crossing's number, from its label and the number of its neighbour that way.
fn run_on(b: u8, last: u16) -> u16 {
    if b != OPEN {
        0
    } else if last == NONE {
        NONE
    } else {
        last + 1
    }
}

/// The distances of the whole map: each number is made of its neighbour's.
pub fn measure(
    s: &[u8],
    w: usize,
    east: &mut [u16],
    south: &mut [u16],
    west: &mut [u16],
    north: &mut [u16],
) {
    for (row, out) in s.chunks_exact(w).zip(east.chunks_exact_mut(w)) {
        along(row.iter().zip(out).rev());
    }
    across(s.chunks_exact(w).zip(south.chunks_exact_mut(w)));
    for (row, out) in s.chunks_exact(w).zip(west.chunks_exact_mut(w)) {
        along(row.iter().zip(out));
    }
    across(s.chunks_exact(w).zip(north.chunks_exact_mut(w)).rev());
}

/// One row, from the edge on, by one running number.
fn along<'a>(row: impl Iterator<Item = (&'a u8, &'a mut u16)>) {
    let mut last = NONE;
    for (&b, out) in row {
        last = run_on(b, last);
        *out = last;
    }
}

/// All rows, from the edge on: each number is made of the one next to it in the row written before.
fn across<'a>(rows: impl Iterator<Item = (&'a [u8], &'a mut [u16])>) {
    let mut before: Option<&[u16]> = None;
    for (row, out) in rows {
        match before {
            None => {
                for (&b, out) in row.iter().zip(out.iter_mut()) {
                    *out = run_on(b, NONE);
                }
            }
            Some(before) => {
                for ((&b, &last), out) in row.iter().zip(before).zip(out.iter_mut()) {
                    *out = run_on(b, last);
                }
            }
        }
        before = Some(out);
    }
}

/// The distances of the whole map by looking along its row and its column from each crossing.
pub fn look_from_each(
    s: &[u8],
    w: usize,
    east: &mut [u16],
    south: &mut [u16],
    west: &mut [u16],
    north: &mut [u16],
) {
    for i in 0..s.len() {
        [east[i], south[i], west[i], north[i]] = four(s, w, i % w, i / w);
    }
}
