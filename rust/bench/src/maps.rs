//! The maps that are measured, square, each by its name.
use crate::plain::MOST_MARKERS;

/// Every map's name.
pub const NAMES: [&str; 14] = [
    "empty",
    "sparse",
    "dense",
    "stones",
    "full",
    "diagonal",
    "chequerboard",
    "lattice-1",
    "lattice-2",
    "blocks",
    "spiral-1",
    "spiral-2",
    "winding",
    "zigzag",
];

/// The map of this name, `side` crossings a side: whether each crossing has a rock, by number.
///
/// `sparse` and `dense` have 5 and 30 in a hundred crossings with a rock, drawn with a fixed seed;
/// `full` has one on each crossing; of these no more than a list may hold, those of `full` from the
/// south on. The lattices have single rocks with gaps of one and of two crossings between them;
/// `blocks` has squares of four by four rocks with gaps of two, so that much is closed and nothing
/// is shut. The spirals are a wall of rocks that winds inward, with an open corridor one and two
/// crossings wide. `winding` has single rocks that wind outward, each two crossings off the
/// rectangle that those before it close: so sweeps to the north and to the south take turns.
/// `zigzag` has a wall along the west edge, and single rocks on the south and north edges by turns,
/// from which the crossings close to the north and to the south and to the north again: of all
/// shapes here that takes most sweeps.
pub fn rocks(name: &str, side: usize) -> Option<Vec<bool>> {
    let each = |rock: fn(usize, usize) -> bool| {
        Some((0..side * side).map(|i| rock(i % side, i / side)).collect())
    };
    match name {
        "empty" => each(|_, _| false),
        "sparse" => Some(drawn(side, 5, SEED)),
        "dense" | "stones" => Some(drawn(side, 30, SEED)),
        "full" => Some((0..side * side).map(|i| i < MOST_MARKERS).collect()),
        "diagonal" => each(|x, y| x == y),
        "chequerboard" => each(|x, y| (x + y) % 2 == 0),
        "lattice-1" => each(|x, y| x % 2 == 0 && y % 2 == 0),
        "lattice-2" => each(|x, y| x % 3 == 0 && y % 3 == 0),
        "blocks" => each(|x, y| (x + 5) % 6 < 4 && (y + 5) % 6 < 4),
        "spiral-1" => Some(spiral(side, 1)),
        "spiral-2" => Some(spiral(side, 2)),
        "winding" => Some(winding(side)),
        "zigzag" => Some(zigzag(side)),
        _ => None,
    }
}

/// The clearance of the cart that is asked for over `stones`, and over every other map.
pub fn clearance(name: &str) -> u16 {
    if name == "stones" {
        20
    } else {
        0
    }
}

/// The height of a marker on each crossing. Of `stones` those that `sparse` has too, which are drawn
/// first, are one higher than the cart's clearance, and all others just as high as it: for that
/// cart the rocks are those of `sparse`, and the list is that of `dense`.
pub fn heights(name: &str, side: usize) -> Vec<u16> {
    if name != "stones" {
        return vec![u16::MAX; side * side];
    }
    let higher = drawn(side, 5, SEED);
    let height = |rock: bool| clearance(name) + u16::from(rock);
    higher.into_iter().map(height).collect()
}

/// Whether the map's rocks fit in a list. Those of other shapes than `full` and `dense` do not on
/// every side.
pub fn fits(name: &str, side: usize) -> bool {
    let rocks = rocks(name, side).unwrap_or_default();
    rocks.iter().filter(|&&rock| rock).count() <= MOST_MARKERS
}

/// The seed of the maps that are drawn once.
const SEED: u64 = 0x9e37_79b9_7f4a_7c15;

/// A map with so many in a hundred crossings with a rock, rounded up, and no more than a list may
/// hold: the first crossings of a shuffle with this seed.
pub fn drawn(side: usize, hundredth: usize, seed: u64) -> Vec<bool> {
    let size = side * side;
    let mut order: Vec<usize> = (0..size).collect();
    let mut state = seed;
    for last in (1..size).rev() {
        state = state
            .wrapping_mul(6364136223846793005)
            .wrapping_add(1442695040888963407);
        order.swap(last, (state >> 33) as usize % (last + 1));
    }
    let mut map = vec![false; size];
    let rocks = (size * hundredth).div_ceil(100).min(MOST_MARKERS);
    for &i in &order[..rocks] {
        map[i] = true;
    }
    map
}

/// A wall that starts in the south-west corner, goes round the map and winds inward, `corridor`
/// open crossings between its turns. It is drawn leg by leg: the first three go along whole edges,
/// and from then on each leg is a turn's pitch shorter than the last one along its axis.
fn spiral(side: usize, corridor: usize) -> Vec<bool> {
    let pitch = corridor as isize + 1;
    let mut map = vec![false; side * side];
    let (mut x, mut y) = (0, 0);
    map[0] = true;
    let heading = [(1, 0), (0, 1), (-1, 0), (0, -1)];
    let mut left = [side as isize - 1; 2];
    for leg in 0.. {
        let (dx, dy) = heading[leg % 4];
        if leg > 2 {
            left[leg % 2] -= pitch;
        }
        if left[leg % 2] < pitch {
            break; // a shorter leg would lean on the one before
        }
        for _ in 0..left[leg % 2] {
            x += dx;
            y += dy;
            map[y as usize * side + x as usize] = true;
        }
    }
    map
}

/// Rocks wound outward from the middle. Each stands two crossings off one edge of the rectangle
/// closed so far, at the corner that the rock before it added; so it is reached only once that one
/// is, and each turn of the winding takes a sweep to the north and one to the south.
fn winding(side: usize) -> Vec<bool> {
    let mut map = vec![false; side * side];
    let middle = side / 2;
    let (mut west, mut south, mut east, mut north) = (middle, middle, middle, middle);
    map[middle * side + middle] = true;
    for leg in 0.. {
        let (x, y) = match leg % 4 {
            0 => (east + 2, south),
            1 => (east, north + 2),
            2 => (west.wrapping_sub(2), north),
            _ => (west, south.wrapping_sub(2)),
        };
        if x >= side || y >= side {
            break;
        }
        map[y * side + x] = true;
        (west, south) = (west.min(x), south.min(y));
        (east, north) = (east.max(x), north.max(y));
    }
    map
}

/// A wall along the west edge. A rock beside its south end closes the next column to the north, one
/// crossing a sweep; a rock on the north edge two columns on, behind a gap of one, closes the next
/// two to the south; a rock beside their south end the next to the north, and so on.
fn zigzag(side: usize) -> Vec<bool> {
    let rock = |x: usize, y: usize| match x % 3 {
        _ if x == 0 => true,
        0 => y == side - 1,
        1 => y == 0,
        _ => false,
    };
    (0..side * side).map(|i| rock(i % side, i / side)).collect()
}

/// The map as text, rows from the north.
pub fn show(map: &[bool], side: usize) -> String {
    let row = |row: &[bool]| -> String {
        let signs = row.iter().map(|&rock| if rock { '#' } else { '.' });
        signs.chain(['\n']).collect()
    };
    map.chunks(side).rev().map(row).collect()
}
