//! Labelling: the settled examples 1 to 6, the numbers, and the text.

mod common;

use common::{at, eight, owned, slots, LOWEST, R, R_LABELS};
use grainbodkin::{Label, Labels, Markers};

/// The shut crossings, by number.
fn shut(labels: &Labels) -> Vec<(usize, usize)> {
    let places = labels.map().places();
    places
        .filter(|place| labels.label(*place) == Some(Label::Shut))
        .map(|place| (place.x, place.y))
        .collect()
}

fn numbers(labels: &Labels) -> (usize, usize, usize) {
    (labels.rocks(), labels.shut(), labels.groups())
}

#[test]
fn without_rocks_all_are_open() {
    let labels = owned(&[]).label(LOWEST).unwrap();
    assert_eq!(labels.sheet(), [0; 64]);
    assert_eq!(numbers(&labels), (0, 0, 0));
}

#[test]
fn two_closed_neighbours_shut_a_crossing() {
    let labels = owned(&[(1, 1), (1, 2), (2, 1)]).label(LOWEST).unwrap();
    assert_eq!((shut(&labels), numbers(&labels)), (vec![(2, 2)], (3, 1, 1)));
    let labels = owned(&[(1, 1), (3, 1)]).label(LOWEST).unwrap();
    assert_eq!((shut(&labels), numbers(&labels)), (vec![(2, 1)], (2, 1, 1)));
    let labels = owned(&[(1, 1), (4, 1)]).label(LOWEST).unwrap();
    assert_eq!((shut(&labels), numbers(&labels)), (vec![], (2, 0, 2)));
    let labels = owned(&[(0, 0), (1, 1)]).label(LOWEST).unwrap();
    assert_eq!(
        (shut(&labels), numbers(&labels)),
        (vec![(1, 0), (0, 1)], (2, 2, 1))
    );
}

#[test]
fn r_is_one_group() {
    let labels = owned(&R).label(LOWEST).unwrap();
    assert_eq!(labels.sheet(), R_LABELS);
    assert_eq!(numbers(&labels), (3, 3, 1));
    assert_eq!(labels.label(at(4, 3)), Some(Label::Rock));
    assert_eq!(labels.label(at(8, 0)), None);
    assert_eq!(labels.label(at(0, 8)), None);
}

#[test]
fn a_sheet_is_labelled_afresh_whatever_it_held() {
    let mut sheet = [1; 64];
    let numbers = eight(&slots(&R)).label(&mut sheet).unwrap();
    assert_eq!(sheet, R_LABELS);
    assert_eq!((numbers.rocks, numbers.shut, numbers.groups), (3, 3, 1));
}

#[test]
fn clearing_opens_shut_crossings_again_and_leaves_other_rocks() {
    let mut markers = owned(&[(1, 1), (3, 1), (1, 1)]);
    assert_eq!(shut(&markers.label(LOWEST).unwrap()), [(2, 1)]);
    markers.clear(1).unwrap();
    assert_eq!(shut(&markers.label(LOWEST).unwrap()), [(2, 1)]);
    markers.clear(3).unwrap();
    assert_eq!(numbers(&markers.label(LOWEST).unwrap()), (1, 0, 1));
}

#[test]
fn the_text_is_the_labelling_programs() {
    let markers = Markers::read(b"P1\n4 3\n0010\n0100\n0000\n", 2).unwrap();
    let labels = markers.label(LOWEST).unwrap();
    assert_eq!(labels.to_string(), "4 3 2 2 1\n.o#.\n.#o.\n....");
    let rows = labels
        .rows()
        .map(|row| row.map(Label::sign).collect::<String>());
    assert!(rows.eq([".o#.", ".#o.", "...."]));
}

#[test]
fn labels_and_their_bytes() {
    for label in [Label::Open, Label::Rock, Label::Shut] {
        assert_eq!(Label::from_byte(label.byte()), Some(label));
        assert_eq!(label.is_closed(), label.byte() != 0);
    }
    assert_eq!(Label::from_byte(3), None);
}
