//! Random maps: sizes and shapes, each by its name.
use crate::random::{Random, Weighted};
use independent::map::{Crossing, Map, SIDE};

/// A size: how it is made.
type Size = Weighted<fn(&mut Random) -> Map>;

/// Most maps are small. Those over 64 by 64 are few, for the independent program takes its time
/// over them; those near a multiple of 64 wide, where a row of bits goes on in another word, are
/// flat.
pub const SIZES: [Size; 11] = [
    ("1 by 1", 40, |_| Map::new(1, 1)),
    ("up to 8 by 8", 2580, |r| {
        Map::new(r.between(1, 8), r.between(1, 8))
    }),
    ("up to 16 by 16", 680, |r| {
        Map::new(r.between(1, 16), r.between(1, 16))
    }),
    ("1 by n", 120, |r| Map::new(1, r.between(1, SIDE))),
    ("n by 1", 120, |r| Map::new(r.between(1, SIDE), 1)),
    ("one side of 256, the other up to 4", 80, |r| {
        let other = r.between(1, 4);
        r.pick(&[Map::new(SIDE, other), Map::new(other, SIDE)])
    }),
    ("near a multiple of 64 wide", 120, |r| {
        let width = 64 * r.between(1, 4) + r.below(3) - 1;
        Map::new(width.min(SIDE), r.between(1, 12))
    }),
    ("up to 64 by 64", 200, |r| {
        Map::new(r.between(1, 64), r.between(1, 64))
    }),
    ("up to 256 by 256", 30, |r| {
        Map::new(r.between(1, SIDE), r.between(1, SIDE))
    }),
    ("near 256 by 256", 15, |r| {
        Map::new(r.between(SIDE - 2, SIDE), r.between(SIDE - 2, SIDE))
    }),
    ("256 by 256", 15, |_| Map::new(SIDE, SIDE)),
];

/// A shape: the rocks that it has on a map.
type Shape = Weighted<fn(&mut Random, Map) -> Vec<Crossing>>;

pub const SHAPES: [Shape; 16] = [
    ("no rocks", 1, |_, _| Vec::new()),
    ("few rocks", 4, |r, map| {
        let rocks = r.between(1, 4);
        (0..rocks).map(|_| any(r, map)).collect()
    }),
    ("a rock in a corner", 2, |r, map| {
        let x = r.pick(&[0, map.width - 1]);
        vec![Crossing::new(x, r.pick(&[0, map.height - 1]))]
    }),
    ("sparse", 4, |r, map| by_chance(r, map, 1, 8)),
    ("middling", 2, |r, map| by_chance(r, map, 8, 25)),
    ("dense", 1, |r, map| by_chance(r, map, 25, 95)),
    ("full", 1, |_, map| map.crossings().collect()),
    ("lattice with gaps of one", 1, |r, map| lattice(r, map, 2)),
    ("lattice with gaps of two", 2, |r, map| lattice(r, map, 3)),
    ("loosened lattice with gaps of two", 4, loosened),
    ("diagonals", 2, diagonals),
    ("chequerboard", 1, |r, map| {
        let odd = r.below(2);
        keep(map, |c| (c.x + c.y) % 2 == odd)
    }),
    ("spiral", 1, spiral),
    ("winding", 1, winding),
    ("wall with a gap", 2, wall),
    ("blocks", 4, blocks),
];

/// A size with its name.
pub fn size(random: &mut Random) -> (&'static str, Map) {
    let (name, make) = random.by_weight(&SIZES);
    (name, make(random))
}

/// The rocks of a random shape, with its name; now and then with one rock more or less than the
/// shape has.
pub fn rocks(random: &mut Random, map: Map) -> (&'static str, Vec<Crossing>) {
    let (name, make) = random.by_weight(&SHAPES);
    let mut rocks = make(random, map);
    if random.percent(15) && !rocks.is_empty() {
        rocks.swap_remove(random.below(rocks.len()));
    }
    if random.percent(15) {
        rocks.push(any(random, map));
    }
    rocks.sort();
    rocks.dedup();
    (name, rocks)
}

/// Any crossing of the map.
pub fn any(random: &mut Random, map: Map) -> Crossing {
    Crossing::new(random.below(map.width), random.below(map.height))
}

fn keep(map: Map, rock: impl Fn(Crossing) -> bool) -> Vec<Crossing> {
    map.crossings().filter(|&c| rock(c)).collect()
}

fn by_chance(random: &mut Random, map: Map, low: usize, high: usize) -> Vec<Crossing> {
    let chance = random.between(low, high);
    map.crossings().filter(|_| random.percent(chance)).collect()
}

fn lattice(random: &mut Random, map: Map, step: usize) -> Vec<Crossing> {
    let (a, b) = (random.below(step), random.below(step));
    keep(map, |c| c.x % step == a && c.y % step == b)
}

/// Some rocks of the lattice are missing, some stand one crossing further east or north.
fn loosened(random: &mut Random, map: Map) -> Vec<Crossing> {
    let mut rocks = lattice(random, map, 3);
    rocks.retain(|_| random.percent(80));
    for rock in &mut rocks {
        match random.below(12) {
            0 => rock.x += 1,
            1 => rock.y += 1,
            _ => {}
        }
    }
    rocks.retain(|&c| map.has(c));
    rocks
}

/// Diagonals at equal steps, rising or falling, whole or with holes.
fn diagonals(random: &mut Random, map: Map) -> Vec<Crossing> {
    let (step, at) = (random.between(2, 300), random.below(300));
    let rising = random.percent(50);
    let mut rocks = keep(map, |c| {
        let across = if rising { c.x + SIDE - c.y } else { c.x + c.y };
        across % step == at % step
    });
    if random.percent(40) {
        rocks.retain(|_| random.percent(85));
    }
    rocks
}

/// A wall that winds inwards, with an alley one or two crossings wide between its turns.
fn spiral(random: &mut Random, map: Map) -> Vec<Crossing> {
    let gap = random.between(2, 3) as isize;
    let (mut west, mut south) = (0, 0);
    let (mut east, mut north) = (map.width as isize - 1, map.height as isize - 1);
    let mut rocks = Vec::new();
    let mut from = west;
    while west <= east && south <= north {
        rocks.extend((from..=east).map(|x| (x, south)));
        rocks.extend((south..=north).map(|y| (east, y)));
        rocks.extend((west..=east).map(|x| (x, north)));
        rocks.extend((south + gap..=north).map(|y| (west, y)));
        from = west;
        (west, south, east, north) = (west + gap, south + gap, east - gap, north - gap);
    }
    rocks
        .into_iter()
        .map(|(x, y)| Crossing::new(x as usize, y as usize))
        .collect()
}

/// So many rocks wind outward at most: a map with all that there is room for takes tens of thousands
/// of sweeps, which the independent program makes over the whole map.
const WOUND: usize = 48;

/// Single rocks that wind outward from anywhere, each two crossings off the rectangle that those
/// before it close, at the corner that is closed last: for its size such a map takes many sweeps.
fn winding(random: &mut Random, map: Map) -> Vec<Crossing> {
    let start = any(random, map);
    let (mut west, mut south, mut east, mut north) = (start.x, start.y, start.x, start.y);
    let mut rocks = vec![start];
    for leg in 0..random.between(1, WOUND) {
        let (x, y) = match leg % 4 {
            0 => (east + 2, south),
            1 => (east, north + 2),
            2 => (west.wrapping_sub(2), north),
            _ => (west, south.wrapping_sub(2)),
        };
        if x >= map.width || y >= map.height {
            break;
        }
        rocks.push(Crossing::new(x, y));
        (west, south) = (west.min(x), south.min(y));
        (east, north) = (east.max(x), north.max(y));
    }
    rocks
}

/// One whole row or column of rocks but for a gap, so that many pairs have no shortest drive.
fn wall(random: &mut Random, map: Map) -> Vec<Crossing> {
    let at = any(random, map);
    let gap = random.between(1, 3);
    if random.percent(50) {
        keep(map, |c| c.y == at.y && !(at.x..at.x + gap).contains(&c.x))
    } else {
        keep(map, |c| c.x == at.x && !(at.y..at.y + gap).contains(&c.y))
    }
}

/// Some full rectangles.
fn blocks(random: &mut Random, map: Map) -> Vec<Crossing> {
    let mut rocks = Vec::new();
    for _ in 0..random.between(1, 4) {
        let corner = any(random, map);
        let (a, b) = (random.between(1, 5), random.between(1, 5));
        rocks.extend(keep(map, |c| {
            (corner.x..corner.x + a).contains(&c.x) && (corner.y..corner.y + b).contains(&c.y)
        }));
    }
    rocks
}
