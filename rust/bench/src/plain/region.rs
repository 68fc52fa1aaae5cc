//! The region of shortest drives. A pass from s marks what a shortest drive from s reaches inside
//! the rectangle that s and d span; a pass from d then keeps what also reaches d. The region sheet
//! is its own working memory.
use super::hops::toward;
use super::limits::*;

/// Whether the place is `end` or has a mark one hop nearer it.
fn backed(g: &[u8], w: usize, (ex, ey): Place, (x, y): Place) -> bool {
    (x, y) == (ex, ey)
        || (x != ex && g[y * w + toward(x, ex)] != 0)
        || (y != ey && g[toward(y, ey) * w + x] != 0)
}

/// Visits the rectangle that two ends span, row by row from the first end's row to the other's, and
/// in each row from its column to the other's.
fn span((ex, ey): Place, (fx, fy): Place, mut visit: impl FnMut(usize, usize)) {
    let mut y = ey;
    loop {
        let mut x = ex;
        loop {
            visit(x, y);
            if x == fx {
                break;
            }
            x = toward(x, fx);
        }
        if y == fy {
            break;
        }
        y = toward(y, fy);
    }
}

/// Marks what a shortest drive from s reaches inside the rectangle that s and d span.
pub fn reach(labels: &[u8], w: usize, s: Place, d: Place, g: &mut [u8]) {
    g.fill(0);
    span(s, d, |x, y| {
        let i = y * w + x;
        g[i] = (labels[i] == OPEN && backed(g, w, s, (x, y))) as u8;
    });
}

/// The region from s to d into a lent sheet. With an end closed: refusal 8, and the sheet stays;
/// with no shortest drive: 9, all 0.
pub fn region(labels: &[u8], w: usize, s: Place, d: Place, g: &mut [u8]) -> Result<(), u8> {
    let number = |(x, y): Place| y * w + x;
    if labels[number(s)] != OPEN || labels[number(d)] != OPEN {
        return Err(END_CLOSED);
    }
    reach(labels, w, s, d, g);
    span(d, s, |x, y| {
        let i = number((x, y));
        if !backed(g, w, d, (x, y)) {
            g[i] = 0;
        }
    });
    if g[number(s)] == 0 {
        return Err(NO_DRIVE);
    }
    Ok(())
}
