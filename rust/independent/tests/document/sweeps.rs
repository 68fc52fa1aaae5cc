//! Document 02, Req 10: sweeps that change something, starting from the rocks alone.
use crate::common::*;
use independent::asking::{Asking, Labelled};
use independent::labels::{label, rocks};
use independent::map::{Crossing, Crossings, Map};
use independent::markers::{Marker, TALLEST};
use independent::sweeps::{sweep, sweeps, sweeps_of};

/// The sweeps that a map takes, and its shut crossings.
fn counted(map: Map, rocks: &[(usize, usize)]) -> (usize, usize) {
    let rocks = set(rocks);
    let (sweeps, last) = sweeps_of(map, &rocks);
    let closed = last.iter().filter(|closed| **closed).count();
    (sweeps, closed - rocks.len())
}

/// "With nothing shut it is 0."
#[test]
fn nothing_shut() {
    let three = Map::new(3, 3);
    assert_eq!(counted(three, &[]), (0, 0));
    assert_eq!(counted(three, &[(1, 1)]), (0, 0));
    let full = [(0, 0), (1, 0), (0, 1), (1, 1)];
    assert_eq!(counted(Map::new(2, 2), &full), (0, 0));
    let lattice = [(0, 0), (3, 0), (0, 3), (3, 3)];
    assert_eq!(counted(Map::new(4, 4), &lattice), (0, 0));
}

/// Counted by hand: one sweep for all that the rocks alone close, the diagonal, fronts with the
/// order of numbers and against it, fronts that meet and one that turns.
#[test]
fn counted_by_hand() {
    assert_eq!(counted(Map::new(3, 1), &[(0, 0), (2, 0)]), (1, 1));
    assert_eq!(counted(Map::new(3, 2), &[(0, 0), (1, 1), (2, 0)]), (1, 3));
    let diagonal = [(0, 0), (1, 1), (2, 2), (3, 3)];
    assert_eq!(counted(Map::new(4, 4), &diagonal), (3, 12));
    let east = [(0, 0), (1, 0), (2, 0), (3, 0), (0, 1)];
    assert_eq!(counted(Map::new(4, 2), &east), (3, 3));
    let west = [(0, 1), (1, 1), (2, 1), (3, 1), (3, 0)];
    assert_eq!(counted(Map::new(4, 2), &west), (3, 3));
    let both = [(0, 0), (1, 0), (2, 0), (3, 0), (4, 0), (0, 1), (4, 1)];
    assert_eq!(counted(Map::new(5, 2), &both), (2, 3));
    let turning = [(0, 0), (1, 0), (0, 2)];
    assert_eq!(counted(Map::new(3, 3), &turning), (3, 3));
}

/// "all crossings are judged together on the state before it": a sweep does not see what it closes.
#[test]
fn one_sweep() {
    let map = Map::new(4, 2);
    let wall = set(&[(0, 0), (1, 0), (2, 0), (3, 0), (0, 1)]);
    let state = map.sheet(|c| wall.contains(&c));
    let after = sweep(map, &state);
    let closed: Vec<Crossing> = map
        .crossings()
        .filter(|&c| after[map.number(c)] && !state[map.number(c)])
        .collect();
    assert_eq!(closed, [at(1, 1)]);
}

/// On every map of 4 by 3: "the last state is the labelling, and it is never more than the shut
/// crossings. With nothing shut it is 0."
#[test]
fn every_small_map() {
    let map = Map::new(4, 3);
    for drawn in 0..1u32 << 12 {
        let rock = |c: &Crossing| drawn >> map.number(*c) & 1 == 1;
        let places: Crossings = map.crossings().filter(rock).collect();
        let list: Vec<Marker> = places
            .iter()
            .zip(1..)
            .map(|(c, id)| marker(id, c.x as u16, c.y as u16))
            .collect();
        assert_eq!(rocks(&list, 0), places);
        let asked = Asking {
            map,
            ..asking(&list, &[OLD; 12], &[])
        };
        let after = sweeps(asked);
        let labelled = label(&list, list.len(), map, 0, &[OLD; 12]);
        assert_eq!((after.refusal, &after.labels), (0, &labelled.labels));
        assert!(after.sweeps <= labelled.shut);
        assert_eq!(after.sweeps == 0, labelled.shut == 0);
    }
}

/// The number is one cart's.
#[test]
fn for_one_cart() {
    let mut list: Vec<Marker> = (0..8).map(|x| marker(x + 1, x, 0)).collect();
    let beside = |id, x, height| Marker {
        height,
        ..marker(id, x, 1)
    };
    list.extend([beside(9, 0, 20), beside(10, 7, 10)]);
    let number = |clearance| {
        let cart = Asking {
            clearance,
            ..asking(&list, &[OLD; 64], &[])
        };
        let after = sweeps(cart);
        let on = Labelled::new(EIGHT, clearance, &list);
        assert_eq!((after.refusal, after.labels), (0, on.sheet()));
        after.sweeps
    };
    assert_eq!([9, 10, 20, TALLEST].map(number), [3, 7, 0, 0]);
}

/// "Refusals: none new": 1, 2 and 3, the lowest that applies, with the sheet as it was.
#[test]
fn refused() {
    let list = markers(&R);
    let sheet = [OLD; 64];
    let good = asking(&list, &sheet, &[]);
    let no_size = Asking {
        map: Map::new(8, 0),
        count: 4,
        labels: &sheet[1..],
        ..good
    };
    let no_sheet = Asking {
        count: 4,
        labels: &sheet[1..],
        ..good
    };
    let no_list = Asking { count: 4, ..good };
    for (asked, number) in [(no_size, 1), (no_sheet, 2), (no_list, 3)] {
        let after = sweeps(asked);
        assert_eq!((after.refusal, after.sweeps), (number, 0));
        assert_eq!(after.labels, asked.labels);
    }
    assert_eq!((sweeps(good).refusal, sweeps(good).sweeps), (0, 1));
}
