//! The errors that look reasonable: the independent program makes none of them. One of them, the
//! single pass, is made here by hand beside it.
use crate::common::*;
use independent::drives::{drive, region_of};
use independent::files::{read, write};
use independent::labels::label;
use independent::map::{Crossings, Map};
use independent::markers::{clear, enter, Marker};

/// Markers on one crossing are each kept: with one of two cleared the rock still stands.
#[test]
fn two_markers_on_one_crossing() {
    let list = vec![Marker::default(); 3];
    let first = enter(&list, 0, EIGHT, 9, (2, 2), 1);
    let second = enter(&first.list, first.count, EIGHT, 4, (2, 2), 2);
    assert_eq!((second.refusal, second.count), (0, 2));
    assert_eq!(
        second.list.iter().map(|m| m.id).collect::<Vec<_>>(),
        [4, 9, 0]
    );
    let cleared = clear(&second.list, 2, EIGHT, 4);
    assert_eq!((cleared.refusal, cleared.count), (0, 1));
    let after = label(&cleared.list, 1, EIGHT, 0, &[OLD; 64]);
    assert_eq!((after.rocks, after.labels[18]), (1, 1));
    // Near markers are two rocks.
    let near = label(&markers(&[(2, 2), (3, 2)]), 2, EIGHT, 0, &[OLD; 64]);
    assert_eq!(near.rocks, 2);
}

/// Two neighbours along one axis are enough: example 3.
#[test]
fn both_neighbours_on_one_axis() {
    assert_eq!(shut(&labelled(&[(1, 1), (3, 1)])), set(&[(2, 1)]));
    assert_eq!(shut(&labelled(&[(1, 1), (1, 3)])), set(&[(1, 2)]));
}

/// One pass in number order is not enough: here (1,3) closes only after (2,3), which has the higher
/// number.
#[test]
fn one_pass_is_not_finished() {
    let on = labelled(&[(0, 3), (3, 3), (2, 4)]);
    let mut one_pass: Crossings = on.rocks.clone();
    for c in EIGHT.crossings() {
        let near = EIGHT.neighbours(c).filter(|n| one_pass.contains(n)).count();
        if near >= 2 {
            one_pass.insert(c);
        }
    }
    assert!(one_pass.len() < on.closed.len());
    // And the sweeps end only when nothing changes.
    for c in EIGHT.crossings().filter(|&c| on.open(c)) {
        assert!(EIGHT.neighbours(c).filter(|&n| !on.open(n)).count() < 2);
    }
}

/// Clearing a marker opens what only it kept shut.
#[test]
fn clearing_opens_again() {
    let list = markers(&[(1, 1), (3, 1)]);
    let before = label(&list, 2, EIGHT, 0, &[OLD; 64]);
    assert_eq!(before.shut, 1);
    let cleared = clear(&list, 2, EIGHT, 2);
    let after = label(&cleared.list, cleared.count, EIGHT, 0, &before.labels);
    assert_eq!((after.rocks, after.shut, after.groups), (1, 0, 1));
    assert_eq!(after.labels[EIGHT.number(at(2, 1))], 0);
    // The freed slot is zeros, and used again.
    assert_eq!(cleared.list[1], Marker::default());
    let again = enter(&cleared.list, cleared.count, EIGHT, 1000, (7, 7), 1);
    assert_eq!((again.refusal, again.count), (0, 2));
}

/// The top raster row is the northmost.
#[test]
fn top_raster_row_is_north() {
    let after = read(b"P1\n3 2\n100\n010\n", &[Marker::default(); 2]);
    assert_eq!((after.width, after.height, after.count), (3, 2, 2));
    assert_eq!(after.list[0], marker(1, 0, 1));
    assert_eq!(after.list[1], marker(2, 1, 0));
    let written = write(&after.list, 2, Map::new(3, 2), 0, &[OLD; 10]);
    assert_eq!((written.refusal, written.bytes), (0, 9));
    assert_eq!(written.out, b"P4\n3 2\n\x80\x40\x4D");
}

/// Steered by open neighbours alone a drive from (0,0) to (7,3) in R can strand at (2,3); by the
/// region it never comes there.
#[test]
fn a_drive_is_steered_by_the_region() {
    let on = labelled(&R);
    let (s, d) = (at(0, 0), at(7, 3));
    assert!(on.open(at(2, 3)) && !on.open(at(3, 3)));
    assert!(!region_of(&on, s, d).contains(&at(2, 3)));
    let list = markers(&R);
    for state in 0..1000u32 {
        let places = [s, d];
        let after = drive(
            asking(&list, &[OLD; 64], &places),
            &[OLD; 64],
            &[0; 11],
            state.wrapping_mul(0x9E37_79B9),
        );
        assert_eq!((after.refusal, after.length), (0, 11));
        assert_eq!((after.route[0], after.route[10]), (0, 31));
        assert!(!after.route.contains(&26), "(2,3)");
    }
}
