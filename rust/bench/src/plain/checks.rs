//! The check of a drawn list, over labels.
use super::limits::*;
use grainbodkin_sys::Checked;

/// Why a number is at fault.
const WRONG_START: u8 = 1;
const OFF_THE_MAP: u8 = 2;
const IS_CLOSED: u8 = 3;
const NOT_A_NEIGHBOUR: u8 = 4;
const NOT_NEARER: u8 = 5;
const ENDED_EARLY: u8 = 6;
const WENT_ON: u8 = 7;

/// A refusal, with zeros.
pub fn refused(refusal: u8) -> Checked {
    Checked {
        refusal,
        reason: 0,
        position: 0,
    }
}

/// The crossing n after (x, y), which is not d, or the reason for which it is at fault.
fn step(labels: &[u8], w: usize, (dx, dy): Place, (x, y): Place, n: usize) -> Result<Place, u8> {
    match labels.get(n) {
        None => return Err(OFF_THE_MAP),
        Some(&label) if label != OPEN => return Err(IS_CLOSED),
        Some(_) => {}
    }
    let here = y * w + x;
    let (nearer, to) = if n == here + 1 && x + 1 < w {
        (x < dx, (x + 1, y))
    } else if n + 1 == here && x > 0 {
        (dx < x, (x - 1, y))
    } else if n == here + w {
        (y < dy, (x, y + 1))
    } else if n + w == here {
        (dy < y, (x, y - 1))
    } else {
        return Err(NOT_A_NEIGHBOUR);
    };
    if nearer {
        Ok(to)
    } else {
        Err(NOT_NEARER)
    }
}

/// The first fault of the list, reason and position, or none.
fn first_fault(
    labels: &[u8],
    w: usize,
    s: Place,
    d: Place,
    drawn: &[u16],
) -> Result<(), (u8, usize)> {
    let (&first, rest) = drawn.split_first().ok_or((ENDED_EARLY, 0))?;
    if usize::from(first) != s.1 * w + s.0 {
        return Err((WRONG_START, 0));
    }
    let mut at = s;
    for (&n, position) in rest.iter().zip(1..) {
        if at == d {
            return Err((WENT_ON, position));
        }
        at = step(labels, w, d, at, usize::from(n)).map_err(|reason| (reason, position))?;
    }
    if at != d {
        return Err((ENDED_EARLY, drawn.len()));
    }
    Ok(())
}

/// What is found of the list. With an end closed: refusal 8.
pub fn check(labels: &[u8], w: usize, s: Place, d: Place, drawn: &[u16]) -> Checked {
    if [s, d].iter().any(|&(x, y)| labels[y * w + x] != OPEN) {
        return refused(END_CLOSED);
    }
    let (reason, position) = first_fault(labels, w, s, d, drawn).err().unwrap_or((0, 0));
    Checked {
        refusal: SUCCESS,
        reason,
        position,
    }
}
