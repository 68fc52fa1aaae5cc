//! Assurance and single hops homeward, over labels.
use super::distances;
use super::limits::*;
use grainbodkin_sys::{Assurance, Homeward};

/// Whether home's distance that way leaves room for the offset.
fn enough(offset: usize, distance: u16) -> bool {
    distance == NONE || offset <= distance as usize
}

/// Whether one axis lets home at m be assured for the place at p, with home's distances upwards and
/// downwards on it.
pub fn axis(up: u16, down: u16, m: usize, p: usize) -> bool {
    if m < p {
        enough(p - m, up)
    } else if p < m {
        enough(m - p, down)
    } else {
        true
    }
}

fn closed(labels: &[u8], w: usize, (x, y): Place) -> bool {
    labels[y * w + x] != OPEN
}

/// Whether home is assured for the place, both open.
fn assured(labels: &[u8], w: usize, (hx, hy): Place, (x, y): Place) -> bool {
    let [east, south, west, north] = distances::four(labels, w, hx, hy);
    axis(east, west, hx, x) && axis(north, south, hy, y)
}

/// Whether home is assured. With an end closed: refusal 8.
pub fn assurance(labels: &[u8], w: usize, home: Place, place: Place) -> Assurance {
    if closed(labels, w, home) || closed(labels, w, place) {
        return Assurance {
            refusal: END_CLOSED,
            assured: false,
        };
    }
    Assurance {
        refusal: SUCCESS,
        assured: assured(labels, w, home, place),
    }
}

/// One hop from p towards d along an axis, where they differ.
pub fn toward(p: usize, d: usize) -> usize {
    if p < d {
        p + 1
    } else {
        p - 1
    }
}

/// A refused hop, or the answer at home.
pub fn no_hop(refusal: u8) -> Homeward {
    Homeward {
        refusal,
        hops: 0,
        x: 0,
        y: 0,
        a: 0,
        b: 0,
    }
}

/// The permitted hops from the place towards home. With an end closed: refusal 8; both open and
/// home not assured: 11.
pub fn homeward(labels: &[u8], w: usize, home: Place, place: Place) -> Homeward {
    if closed(labels, w, home) || closed(labels, w, place) {
        return no_hop(END_CLOSED);
    }
    if !assured(labels, w, home, place) {
        return no_hop(NOT_ASSURED);
    }
    let ((hx, hy), (x, y)) = (home, place);
    let open = |&p: &Place| !closed(labels, w, p);
    let row = (x != hx).then(|| (toward(x, hx), y)).filter(open);
    let column = (y != hy).then(|| (x, toward(y, hy))).filter(open);
    let answer = no_hop(SUCCESS);
    match (row, column) {
        (Some((x, y)), Some((a, b))) => Homeward {
            hops: 2,
            x,
            y,
            a,
            b,
            ..answer
        },
        (Some((x, y)), None) | (None, Some((x, y))) => Homeward {
            hops: 1,
            x,
            y,
            ..answer
        },
        (None, None) => answer,
    }
}
