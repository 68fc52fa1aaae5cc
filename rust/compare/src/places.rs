//! Random places and ids, each choice by its name.
use crate::case::{Call, Case};
use crate::maps::any;
use crate::random::{Random, Weighted};
use independent::map::{Crossing, Map};

/// A choice of places: what it changes of two places chosen anywhere on the map.
type Choice = Weighted<fn(&mut Random, &mut Case, &[Crossing])>;

pub const PLACES: [Choice; 9] = [
    ("places anywhere", 6, |_, _, _| {}),
    ("a place on a rock", 1, |r, case, rocks| {
        if !rocks.is_empty() {
            case.places[r.below(2)] = r.pick(rocks);
        }
    }),
    ("a place near a rock", 1, |r, case, rocks| {
        if !rocks.is_empty() {
            let rock = r.pick(rocks);
            case.places[r.below(2)] = near(r, case.map, rock);
        }
    }),
    ("places equal", 1, |_, case, _| {
        case.places[1] = case.places[0]
    }),
    ("places in one row", 1, |_, case, _| {
        case.places[1].y = case.places[0].y
    }),
    ("places in one column", 1, |_, case, _| {
        case.places[1].x = case.places[0].x
    }),
    ("places on both sides of a rock", 3, |r, case, rocks| {
        if !rocks.is_empty() {
            let rock = r.pick(rocks);
            case.places = across(r, case.map, rock);
        }
    }),
    (
        "places at the other corners of two rocks",
        1,
        |r, case, rocks| {
            if let Some(places) = other_corners(r, rocks) {
                case.places = places;
            }
        },
    ),
    ("places at two corners", 1, |r, case, _| {
        let (east, north) = (case.map.width - 1, case.map.height - 1);
        let x = r.pick(&[0, east]);
        case.places = [Crossing::new(x, 0), Crossing::new(east - x, north)];
        if r.percent(50) {
            case.places.reverse();
        }
    }),
];

/// Chooses the places that the call is asked about.
pub fn choose(random: &mut Random, case: &mut Case, rocks: &[Crossing]) {
    case.places = [any(random, case.map), any(random, case.map)];
    let (name, change) = random.by_weight(&PLACES);
    change(random, case, rocks);
    case.notes.push(name);
}

/// A crossing at most one east or west and at most one north or south of a rock: often a shut one.
fn near(random: &mut Random, map: Map, rock: Crossing) -> Crossing {
    let mut beside =
        |at: usize, side: usize| (at + random.below(3)).saturating_sub(1).min(side - 1);
    Crossing::new(beside(rock.x, map.width), beside(rock.y, map.height))
}

/// One place in the rock's row or column on either side of it, the second now and then one row or
/// column away: pairs that often have no shortest drive.
fn across(random: &mut Random, map: Map, rock: Crossing) -> [Crossing; 2] {
    let mut one = rock;
    let mut other = rock;
    let slip = usize::from(random.percent(25));
    if random.percent(50) {
        one.x = random.between(0, rock.x);
        other.x = random.between(rock.x, map.width - 1);
        other.y = (other.y + slip).min(map.height - 1);
    } else {
        one.y = random.between(0, rock.y);
        other.y = random.between(rock.y, map.height - 1);
        other.x = (other.x + slip).min(map.width - 1);
    }
    if random.percent(50) {
        [one, other]
    } else {
        [other, one]
    }
}

/// Of a rock and the nearest one that is one row or one column away, not diagonally next to it: the
/// other two corners of the rectangle that they span. No row, or no column, is open throughout it,
/// and home may be assured all the same.
fn other_corners(random: &mut Random, rocks: &[Crossing]) -> Option<[Crossing; 2]> {
    if rocks.is_empty() {
        return None;
    }
    let one = random.pick(rocks);
    let aside = |c: &&Crossing| one.x.abs_diff(c.x).min(one.y.abs_diff(c.y)) == 1;
    let others = rocks.iter().filter(aside).filter(|c| one.distance(**c) > 2);
    let other = others.min_by_key(|c| one.distance(**c))?;
    Some([Crossing::new(one.x, other.y), Crossing::new(other.x, one.y)])
}

/// Chooses an id: one in use, one beside it, 0, the last there is, or any.
pub fn choose_id(random: &mut Random, case: &mut Case) {
    let used = &case.before.list[..case.count];
    let wanted_in_use = match case.call {
        Call::Clear => 60,
        _ => 15,
    };
    case.id = if !used.is_empty() && random.percent(wanted_in_use) {
        random.pick(used).id
    } else if !used.is_empty() && random.percent(30) {
        random.pick(used).id.wrapping_add(1)
    } else {
        let any = random.word();
        random.pick(&[0, 1, 2, u16::MAX, any, any, any, any])
    };
}
