//! The marker list: entering, clearing, their refusals, and the owned list.

mod common;

use common::{at, bad_lists, rock, slots, BAD_SIZES};
use grainbodkin::{Map, Marker, Markers, MarkersMut, Refusal, MARKERS, TALLEST};

const OTHER: Marker = rock(500, 600, 700);

fn lent(slots: &mut [Marker], count: usize) -> MarkersMut<'_> {
    MarkersMut {
        slots,
        count,
        width: 8,
        height: 8,
    }
}

/// What entering and clearing are refused with, and that they then change nothing.
fn refused(
    slots: &[Marker],
    count: usize,
    call: impl Fn(&mut MarkersMut<'_>) -> Result<usize, Refusal>,
) -> Refusal {
    let mut after = slots.to_vec();
    let mut list = lent(&mut after, count);
    let refusal = call(&mut list).unwrap_err();
    assert_eq!(list.count, count);
    assert_eq!(after, slots);
    refusal
}

#[test]
fn entering_goes_by_id_and_moves_the_later_ones_up() {
    let mut slots = [rock(2, 1, 1), rock(9, 1, 1), OTHER, OTHER, OTHER];
    let mut list = lent(&mut slots, 2);
    assert_eq!(list.enter(5, at(1, 1), TALLEST), Ok(3));
    assert_eq!(list.enter(65_535, at(7, 7), TALLEST), Ok(4));
    assert_eq!(list.count, 4);
    let four = [(2, 1, 1), (5, 1, 1), (9, 1, 1), (65_535, 7, 7)];
    assert_eq!(slots[..4], four.map(|(id, x, y)| rock(id, x, y)));
    assert_eq!(slots[4], OTHER);
}

#[test]
fn clearing_moves_the_later_ones_down_and_zeros_the_freed_slot() {
    let mut slots = [rock(2, 1, 1), rock(5, 2, 3), rock(9, 4, 5), OTHER];
    let mut list = lent(&mut slots, 3);
    assert_eq!(list.clear(2), Ok(2));
    assert_eq!(list.count, 2);
    let left = [rock(5, 2, 3), rock(9, 4, 5), Marker::default(), OTHER];
    assert_eq!(slots, left);
}

#[test]
fn slots_past_the_count_are_not_read() {
    let mut slots = [rock(3, 0, 0), rock(3, 60_000, 60_000)];
    assert_eq!(lent(&mut slots, 1).enter(4, at(1, 0), TALLEST), Ok(2));
    assert_eq!(slots, [rock(3, 0, 0), rock(4, 1, 0)]);
}

#[test]
fn refusals_of_entering_change_no_slot() {
    let two = slots(&[(1, 1), (2, 2)]);
    let enter = |id, x, y| move |list: &mut MarkersMut<'_>| list.enter(id, at(x, y), TALLEST);
    for (width, height) in BAD_SIZES {
        let sized = |list: &mut MarkersMut<'_>| {
            (list.width, list.height) = (width, height);
            list.enter(0, at(9, 9), TALLEST)
        };
        assert_eq!(refused(&two, 9, sized), Refusal::BadSize);
    }
    for (slots, count) in bad_lists() {
        assert_eq!(refused(&slots, count, enter(0, 9, 9)), Refusal::BadList);
    }
    for (id, x, y) in [(0, 1, 1), (1, 8, 0), (1, 0, 8), (1, usize::MAX, 0)] {
        assert_eq!(refused(&two, 2, enter(id, x, y)), Refusal::BadPlace);
    }
    assert_eq!(refused(&two, 2, enter(2, 1, 1)), Refusal::IdInUse);
    assert_eq!(refused(&two, 2, enter(3, 1, 1)), Refusal::NoSlot);
    let most: Vec<Marker> = (1..=8200).map(|id| rock(id, 7, 7)).collect();
    assert_eq!(refused(&most, 8192, enter(9000, 1, 1)), Refusal::NoSlot);
}

#[test]
fn refusals_of_clearing_change_no_slot() {
    let two = slots(&[(1, 1), (2, 2)]);
    for (width, height) in BAD_SIZES {
        let sized = |list: &mut MarkersMut<'_>| {
            (list.width, list.height) = (width, height);
            list.clear(9)
        };
        assert_eq!(refused(&two, 9, sized), Refusal::BadSize);
    }
    for (slots, count) in bad_lists() {
        assert_eq!(
            refused(&slots, count, |list| list.clear(9)),
            Refusal::BadList
        );
    }
    for id in [0, 3, 65_535] {
        assert_eq!(refused(&two, 2, |list| list.clear(id)), Refusal::IdNotInUse);
    }
    assert_eq!(refused(&two, 1, |list| list.clear(2)), Refusal::IdNotInUse);
}

#[test]
fn an_owned_list_keeps_every_marker_and_uses_freed_room_again() {
    let mut markers = Markers::new(Map::new(8, 8).unwrap(), 2);
    assert!(markers.is_empty());
    assert_eq!(markers.enter(7, at(3, 3), TALLEST), Ok(1));
    assert_eq!(markers.enter(2, at(3, 3), TALLEST), Ok(2));
    assert_eq!(markers.enter(5, at(3, 3), TALLEST), Err(Refusal::NoSlot));
    assert_eq!(markers.enter(7, at(3, 3), TALLEST), Err(Refusal::IdInUse));
    assert_eq!(markers.enter(0, at(3, 3), TALLEST), Err(Refusal::BadPlace));
    assert_eq!(markers.clear(7), Ok(1));
    assert_eq!(markers.clear(7), Err(Refusal::IdNotInUse));
    assert_eq!(markers.enter(5, at(4, 3), TALLEST), Ok(2));
    assert_eq!((markers.len(), markers.room()), (2, 2));
    assert_eq!(markers.get(5), Some(rock(5, 4, 3)));
    assert_eq!(markers.get(7), None);
    assert!(markers.iter().map(|marker| marker.id).eq([2, 5]));
    assert_eq!((&markers).into_iter().count(), 2);
}

#[test]
fn lists_are_equal_whatever_their_room() {
    let map = Map::new(8, 8).unwrap();
    let (mut one, mut two) = (Markers::new(map, 1), Markers::new(map, 9));
    assert_eq!(one, two);
    one.enter(1, at(1, 1), TALLEST).unwrap();
    assert_ne!(one, two);
    two.enter(1, at(1, 1), TALLEST).unwrap();
    assert_eq!(one, two);
    assert_ne!(
        Markers::new(map, 1),
        Markers::new(Map::new(8, 7).unwrap(), 1)
    );
    let shown = "Markers { map: Map { width: 8, height: 8 }, room: 1, markers: [Marker { id: 1, x: 1, y: 1, height: 65535 }] }";
    assert_eq!(format!("{one:?}"), shown);
}

#[test]
fn no_more_markers_than_the_limit_whatever_the_room() {
    let mut markers = Markers::new(Map::new(1, 1).unwrap(), usize::MAX);
    assert_eq!(markers.room(), MARKERS);
    for id in 1..=MARKERS {
        assert_eq!(markers.enter(id as u16, at(0, 0), TALLEST), Ok(id));
    }
    assert_eq!(
        markers.enter(60_000, at(0, 0), TALLEST),
        Err(Refusal::NoSlot)
    );
    assert_eq!(markers.clear(1), Ok(MARKERS - 1));
    assert_eq!(markers.enter(60_000, at(0, 0), TALLEST), Ok(MARKERS));
}
