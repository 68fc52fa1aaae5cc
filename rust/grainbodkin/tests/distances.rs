//! Clear distances: the settled examples 1 and 7, and the four sheets.

mod common;

use common::{at, eight, owned, slots, Lent, LOWEST, R, R_LABELS};
use grainbodkin::{Clear, Refusal, NO_DISTANCE, TALLEST};

const NONE: Clear = Clear {
    east: None,
    south: None,
    west: None,
    north: None,
};

#[test]
fn without_rocks_there_is_no_distance() {
    let markers = owned(&[]);
    for place in markers.map().places() {
        assert_eq!(markers.distances(LOWEST, place), Ok(NONE));
    }
}

#[test]
fn the_distances_of_r() {
    let markers = owned(&R);
    let east = Clear {
        east: Some(3),
        ..NONE
    };
    let north = Clear {
        north: Some(2),
        ..NONE
    };
    assert_eq!(markers.distances(LOWEST, at(0, 2)), Ok(east));
    assert_eq!(markers.distances(LOWEST, at(4, 0)), Ok(north));
    assert_eq!(markers.distances(LOWEST, at(4, 2)), Ok(Clear::from([0; 4])));
    assert_eq!(markers.distances(LOWEST, at(8, 2)), Err(Refusal::BadPlace));
    assert_eq!(markers.distances(LOWEST, at(2, 8)), Err(Refusal::BadPlace));
}

#[test]
fn the_largest_distance_is_one_less_than_the_side() {
    let map = grainbodkin::Map::new(256, 256).unwrap();
    let mut markers = grainbodkin::Markers::new(map, 1);
    markers.enter(1, at(255, 0), TALLEST).unwrap();
    let east = Clear {
        east: Some(255),
        ..NONE
    };
    let south = Clear {
        south: Some(255),
        ..NONE
    };
    assert_eq!(markers.distances(LOWEST, at(0, 0)), Ok(east));
    assert_eq!(markers.distances(LOWEST, at(255, 255)), Ok(south));
    // A distance of 255 is told from none, in the sheets too.
    let distances = markers.measure(LOWEST).unwrap();
    assert_eq!(distances.east()[..2], [255, 254]);
    assert_eq!(distances.east()[256], NO_DISTANCE);
    assert_eq!(distances.south()[65_534..], [NO_DISTANCE, 255]);
    assert_eq!(distances.at(at(0, 0)), Some(east));
}

#[test]
fn the_sheets_hold_each_crossings_distances() {
    let markers = owned(&R);
    let distances = markers.measure(LOWEST).unwrap();
    for place in markers.map().places() {
        let clear = markers.distances(LOWEST, place).unwrap();
        let number = markers.map().number(place).unwrap();
        let sheets = [
            distances.east(),
            distances.south(),
            distances.west(),
            distances.north(),
        ];
        assert_eq!(sheets.map(|sheet| sheet[number]), <[u16; 4]>::from(clear));
        assert_eq!(distances.at(place), Some(clear));
    }
    assert_eq!(distances.at(at(8, 0)), None);
    assert_eq!(distances.map(), markers.map());
}

#[test]
fn lent_sheets_hold_distances_and_labels() {
    let slots = slots(&[(0, 0)]);
    let mut m = Lent::new(64, 0);
    let (labels, east, south) = (&mut m.labels, &mut m.east, &mut m.south);
    let done = eight(&slots).measure(labels, east, south, &mut m.west, &mut m.north);
    assert_eq!(done, Ok(()));
    assert_eq!(m.labels[..3], [1, 0, 0]);
    assert_eq!(m.east[..3], [0, NO_DISTANCE, NO_DISTANCE]);
    assert_eq!(m.west[..3], [0, 1, 2]);
    assert_eq!([m.south[8], m.south[16]], [1, 2]);
    assert_eq!([m.north[0], m.north[8]], [0, NO_DISTANCE]);
}

#[test]
fn one_crossings_asking_leaves_the_labels() {
    let mut labels = [9; 64];
    assert!(eight(&slots(&R)).distances(at(0, 0), &mut labels).is_ok());
    assert_eq!(labels, R_LABELS);
}
