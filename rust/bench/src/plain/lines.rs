//! Crossing lines and the drive by way of where they meet, over labels.
use super::drives;
use super::limits::*;
use super::region::region;
use grainbodkin_sys::CrossingLines;

/// A no, or a refusal.
pub fn none(refusal: u8) -> CrossingLines {
    CrossingLines {
        refusal,
        yes: false,
        column: 0,
        row: 0,
    }
}

/// The lowest of two places on an axis, and how many there are from it to the other.
fn between(a: usize, b: usize) -> (usize, usize) {
    (a.min(b), a.abs_diff(b) + 1)
}

/// The first of m lines of n crossings that is open throughout. The first line begins at the number
/// i, each next one `across` after it.
fn first_open(
    labels: &[u8],
    i: usize,
    (across, along): (usize, usize),
    (m, n): (usize, usize),
) -> Option<usize> {
    let open = |j: &usize| (0..n).all(|k| labels[i + j * across + k * along] == OPEN);
    (0..m).find(open)
}

/// The crossing where the westmost open column and the southmost open row meet.
fn meeting(labels: &[u8], w: usize, s: Place, d: Place) -> Option<Place> {
    let (x, columns) = between(s.0, d.0);
    let (y, rows) = between(s.1, d.1);
    let i = y * w + x;
    let column = first_open(labels, i, (1, w), (columns, rows))?;
    let row = first_open(labels, i, (w, 1), (rows, columns))?;
    Some((x + column, y + row))
}

fn an_end_closed(labels: &[u8], w: usize, s: Place, d: Place) -> bool {
    [s, d].iter().any(|&(x, y)| labels[y * w + x] != OPEN)
}

/// What the test says. With an end closed: refusal 8.
pub fn test(labels: &[u8], w: usize, s: Place, d: Place) -> CrossingLines {
    if an_end_closed(labels, w, s, d) {
        return none(END_CLOSED);
    }
    match meeting(labels, w, s, d) {
        None => none(SUCCESS),
        Some((column, row)) => CrossingLines {
            refusal: SUCCESS,
            yes: true,
            column,
            row,
        },
    }
}

/// The drive in its two parts into the front of a lent route, and how many crossings it has; or
/// refusal 8, 19 or 10.
pub fn drive(
    labels: &[u8],
    w: usize,
    s: Place,
    d: Place,
    g: &mut [u8],
    route: &mut [u16],
    state: &mut u32,
) -> Result<usize, u8> {
    if an_end_closed(labels, w, s, d) {
        return Err(END_CLOSED);
    }
    let m = meeting(labels, w, s, d).ok_or(NO_LINES)?;
    let hops = |a: Place, b: Place| a.0.abs_diff(b.0) + a.1.abs_diff(b.1);
    let length = hops(s, d) + 1;
    if route.len() < length {
        region(labels, w, s, d, g)?;
        return Err(SHORT_ROUTE);
    }
    drives::drive(labels, w, s, m, g, route, state)?;
    drives::drive(labels, w, m, d, g, &mut route[hops(s, m)..], state)?;
    region(labels, w, s, d, g)?;
    Ok(length)
}
