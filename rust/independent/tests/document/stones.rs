//! Document 02, Req 08: stones of different heights under carts of different clearance.
use crate::common::*;
use independent::asking::{Asking, Labelled};
use independent::distances::assured;
use independent::files::{read, write};
use independent::hops::hop;
use independent::labels::label;
use independent::map::Map;
use independent::markers::{clear, enter, Marker, TALLEST};

/// Stones with ids 1, 2, 3 and on.
fn stones(stones: &[(u16, u16, u16)]) -> Vec<Marker> {
    let with_ids = stones.iter().zip(1..);
    with_ids
        .map(|(&(x, y, height), id)| Marker { id, x, y, height })
        .collect()
}

/// Rocks' crossings, shut crossings and groups of a cart of this clearance.
fn numbers(list: &[Marker], clearance: u16) -> (usize, usize, usize) {
    let after = label(list, list.len(), EIGHT, clearance, &[OLD; 64]);
    assert_eq!(after.refusal, 0);
    (after.rocks, after.shut, after.groups)
}

/// "exactly if its height is greater than the clearance": one below, equal, one above.
#[test]
fn height_against_clearance() {
    let stone = stones(&[(4, 4, 30)]);
    assert_eq!(numbers(&stone, 29), (1, 0, 1));
    assert_eq!(numbers(&stone, 30), (0, 0, 0));
    assert_eq!(numbers(&stone, 31), (0, 0, 0));
    let ends = stones(&[(4, 4, 0), (6, 6, TALLEST)]);
    assert_eq!(numbers(&ends, 0), (1, 0, 1));
    assert_eq!(numbers(&ends, TALLEST - 1), (1, 0, 1));
    assert_eq!(numbers(&ends, TALLEST), (0, 0, 0));
}

/// Of two stones on one crossing the higher decides, first or last; and, once it is cleared, the
/// other. The freed slot is zeros, its height too.
#[test]
fn two_stones_on_one_crossing() {
    for list in [
        stones(&[(4, 4, 10), (4, 4, 30)]),
        stones(&[(4, 4, 30), (4, 4, 10)]),
    ] {
        assert_eq!(numbers(&list, 20).0, 1);
        assert_eq!(numbers(&list, 30).0, 0);
        let higher = list.iter().find(|m| m.height == 30).unwrap().id;
        let left = clear(&list, 2, EIGHT, higher);
        assert_eq!((left.refusal, left.count), (0, 1));
        assert_eq!(left.list[1], Marker::default());
        assert_eq!(numbers(&left.list[..1], 20).0, 0);
        assert_eq!(numbers(&left.list[..1], 9).0, 1);
    }
}

/// More clearance closes nothing new; but a rock may become a shut crossing, and a group two.
#[test]
fn shut_crossings_and_groups_may_rise() {
    let three = stones(&[(1, 1, 9), (2, 1, 1), (3, 1, 9)]);
    assert_eq!(numbers(&three, 0), (3, 0, 1));
    assert_eq!(numbers(&three, 5), (2, 1, 1));
    assert_eq!(numbers(&three, 9), (0, 0, 0));
    let four = stones(&[(1, 1, 9), (2, 1, 1), (3, 1, 1), (4, 1, 9)]);
    assert_eq!(numbers(&four, 0), (4, 0, 1));
    assert_eq!(numbers(&four, 5), (2, 0, 2));
}

/// "a cart with more clearance never has a closed crossing that a lower one finds open": stones of
/// heights 0 to 2 on every crossing of a map of 3 by 2, in every way.
#[test]
fn closed_crossings_only_shrink() {
    let map = Map::new(3, 2);
    for heights in 0..3u32.pow(6) {
        let height = |number: u32| (heights / 3u32.pow(number) % 3) as u16;
        let list: Vec<_> = map
            .crossings()
            .zip(0..)
            .map(|(c, n)| Marker {
                id: n as u16 + 1,
                x: c.x as u16,
                y: c.y as u16,
                height: height(n),
            })
            .collect();
        let carts = [0, 1, 2].map(|clearance| Labelled::new(map, clearance, &list));
        assert!(carts[1].closed.is_subset(&carts[0].closed));
        assert!(carts[2].closed.is_empty());
    }
}

/// "Markers read from a map file get 65,535; writing a map takes a clearance."
#[test]
fn map_files() {
    let after = read(b"P1 3 1 101", &[Marker::default(); 2]);
    assert_eq!(after.list, [marker(1, 0, 0), marker(2, 2, 0)]);
    let low = stones(&[(0, 0, 30), (2, 0, 10)]);
    let map = Map::new(3, 1);
    let written = |clearance| write(&low, 2, map, clearance, &[OLD; 8]).out;
    assert_eq!(written(9), b"P4\n3 1\n\xa0");
    assert_eq!(written(10), b"P4\n3 1\n\x80");
    assert_eq!(written(30), b"P4\n3 1\n\0");
}

/// "16 looks at all markers, low ones included", and a list is looked at whole: 3 for a low
/// marker's fault.
#[test]
fn low_stones_are_looked_at() {
    let both = stones(&[(4, 4, 0), (4, 4, 0)]);
    assert_eq!(write(&both, 2, EIGHT, TALLEST, &[]).refusal, 16);
    for low in [
        [marker(1, 0, 0), Marker::default()],
        [
            marker(2, 0, 0),
            Marker {
                height: 0,
                ..marker(2, 1, 0)
            },
        ],
        [
            marker(1, 0, 0),
            Marker {
                height: 0,
                ..marker(2, 8, 0)
            },
        ],
    ] {
        for clearance in [0, TALLEST] {
            let after = label(&low, 2, EIGHT, clearance, &[OLD; 64]);
            assert_eq!((after.refusal, after.labels), (3, vec![OLD; 64]));
            assert_eq!(write(&low, 2, EIGHT, clearance, &[]).refusal, 3);
        }
    }
}

/// Every height is allowed when a marker is entered.
#[test]
fn entering_every_height() {
    for height in [0, 1, 30, TALLEST - 1, TALLEST] {
        let after = enter(&[Marker::default()], 0, EIGHT, 5, (2, 6), height);
        let entered = Marker {
            height,
            ..marker(5, 2, 6)
        };
        assert_eq!((after.refusal, after.count), (0, 1));
        assert_eq!(after.list, [entered]);
    }
}

/// A low stone beside home: a cart that passes over it is assured, and hops by its crossing.
#[test]
fn assured_for_one_cart() {
    let list = stones(&[(1, 0, 15)]);
    let places = [at(0, 0), at(3, 0)];
    let cart = |clearance| Asking {
        clearance,
        ..asking(&list, &[OLD; 64], &places)
    };
    assert_eq!(assured(cart(14)).refusal, 0);
    assert!(!assured(cart(14)).assured);
    assert!(assured(cart(15)).assured);
    assert_eq!(hop(cart(14)).refusal, 11);
    assert_eq!(hop(cart(15)).hops, [at(2, 0)]);
}
