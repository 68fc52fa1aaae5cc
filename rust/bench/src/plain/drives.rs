//! The chooser's drive through the region.
use super::hops::toward;
use super::limits::*;
use super::region::region;

/// The generator's next state.
fn draw(z: u32) -> u32 {
    z.wrapping_mul(1664525).wrapping_add(1013904223)
}

/// The chooser's drive from s to d in the lent state, into the front of a lent route, and how many
/// crossings it has; or refusal 8, 9 or 10.
pub fn drive(
    labels: &[u8],
    w: usize,
    s: Place,
    d: Place,
    g: &mut [u8],
    route: &mut [u16],
    state: &mut u32,
) -> Result<usize, u8> {
    region(labels, w, s, d, g)?;
    let length = s.0.abs_diff(d.0) + s.1.abs_diff(d.1) + 1;
    let route = route.get_mut(..length).ok_or(SHORT_ROUTE)?;
    let (last, hops) = route.split_last_mut().expect("a drive has a crossing");
    let (mut x, mut y) = s;
    for number in hops {
        *number = (y * w + x) as u16;
        (x, y) = choose(g, w, d, (x, y), state);
    }
    *last = (y * w + x) as u16;
    Ok(length)
}

/// The choice at (x, y): draw, and with two candidates the top bit 0 takes the east-west one.
fn choose(g: &[u8], w: usize, (dx, dy): Place, (x, y): Place, state: &mut u32) -> Place {
    let row = x != dx && g[y * w + toward(x, dx)] != 0;
    let column = y != dy && g[toward(y, dy) * w + x] != 0;
    *state = draw(*state);
    let east_west = if row && column {
        *state >> 31 == 0
    } else {
        row
    };
    if east_west {
        (toward(x, dx), y)
    } else {
        (x, toward(y, dy))
    }
}
