//! How many sweeps the labelling takes.

mod common;

use common::{at, eight, owned, slots, LOWEST, R, R_LABELS};
use grainbodkin::{Cart, Map, Markers, MarkersRef, TALLEST};

/// An owned list for a map of this size.
fn on(width: usize, height: usize, rocks: &[(usize, usize)]) -> Markers {
    let mut markers = Markers::new(Map::new(width, height).unwrap(), rocks.len());
    for (id, (x, y)) in (1..).zip(rocks) {
        markers.enter(id, at(*x, *y), TALLEST).unwrap();
    }
    markers
}

/// Sweeps and shut crossings.
fn numbers(markers: &Markers) -> (usize, usize) {
    let shut = markers.label(LOWEST).unwrap().shut();
    (markers.sweeps(LOWEST).unwrap(), shut)
}

#[test]
fn with_nothing_shut_it_is_0() {
    assert_eq!(numbers(&owned(&[])), (0, 0));
    assert_eq!(numbers(&owned(&[(3, 3)])), (0, 0));
    assert_eq!(numbers(&on(2, 1, &[(0, 0), (1, 0)])), (0, 0));
    let lattice: Vec<_> = (0..9).map(|i| (i % 3 * 3, i / 3 * 3)).collect();
    assert_eq!(numbers(&on(8, 8, &lattice)), (0, 0));
}

#[test]
fn sweeps_beside_shut_crossings() {
    assert_eq!(numbers(&owned(&R)), (1, 3));
    let diagonal: Vec<_> = (0..8).map(|i| (i, i)).collect();
    assert_eq!(numbers(&on(8, 8, &diagonal)), (7, 56));
    // Two walls that meet: the corner farthest from where they do is closed last.
    let walls = (0..8).map(|i| (i, 0)).chain((1..8).map(|i| (0, i)));
    let walls: Vec<_> = walls.collect();
    assert_eq!(numbers(&on(8, 8, &walls)), (13, 49));
}

/// Along a wall, one crossing a sweep: as many sweeps as shut crossings, on the largest map too.
#[test]
fn as_many_as_the_shut_crossings() {
    for side in [2, 3, 64, 256] {
        let mut wall: Vec<_> = (0..side).map(|y| (0, y)).collect();
        wall.push((1, side - 1));
        assert_eq!(numbers(&on(side, side, &wall)), (side - 1, side - 1));
    }
}

#[test]
fn a_sheet_is_labelled_afresh_whatever_it_held() {
    for byte in 0..=255 {
        let mut sheet = [byte; 64];
        assert_eq!(eight(&slots(&R)).sweeps(&mut sheet), Ok(1));
        assert_eq!(sheet, R_LABELS);
    }
}

#[test]
fn for_one_cart() {
    let mut slots = slots(&[(0, 0), (1, 0), (2, 0), (3, 0), (0, 1)]);
    slots[4].height = 20;
    let mut sheet = [0; 64];
    let mut sweeps = |clearance| {
        let cart = Cart::new(clearance);
        let list = MarkersRef {
            cart,
            ..eight(&slots)
        };
        list.sweeps(&mut sheet).unwrap()
    };
    assert_eq!([19, 20, TALLEST].map(&mut sweeps), [3, 0, 0]);
}
