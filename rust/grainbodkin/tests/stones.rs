//! Stones of different heights under carts of different clearance: whose rocks they are, and what
//! follows from it in every asking.

mod common;

use common::{at, eight, rock, Lent, ASKINGS, LOWEST};
use grainbodkin::{
    Cart, Chooser, Finding, Hops, Label, Map, Marker, Markers, MarkersMut, MarkersRef, Refusal,
    TALLEST,
};

/// A list for a map 8 by 8 of stones, each a crossing and a height, with ids 1, 2, 3 and on.
fn stones(stones: &[(usize, usize, u16)]) -> Markers {
    let mut markers = Markers::new(Map::new(8, 8).unwrap(), stones.len() + 2);
    for (id, &(x, y, height)) in (1..).zip(stones) {
        markers.enter(id, at(x, y), height).unwrap();
    }
    markers
}

/// Rocks' crossings, shut crossings and groups.
fn numbers(markers: &Markers, clearance: u16) -> (usize, usize, usize) {
    let labels = markers.label(Cart::new(clearance)).unwrap();
    (labels.rocks(), labels.shut(), labels.groups())
}

#[test]
fn a_stone_stops_a_cart_exactly_if_it_is_higher() {
    for height in [1, 2, 30, 255, 256, 257, 32_768, TALLEST - 1, TALLEST] {
        let markers = stones(&[(4, 4, height)]);
        assert_eq!(numbers(&markers, height - 1), (1, 0, 1), "{height}");
        assert_eq!(numbers(&markers, height), (0, 0, 0), "{height}");
        let above = height.saturating_add(1);
        assert_eq!(numbers(&markers, above), (0, 0, 0), "{height}");
        for clearance in [0, height - 1, height, above, TALLEST] {
            let cart = Cart::new(clearance);
            let label = markers.label(cart).unwrap().label(at(4, 4)).unwrap();
            assert_eq!(cart.stopped_by(markers.as_slice()[0]), label == Label::Rock);
        }
    }
    assert_eq!(numbers(&stones(&[(4, 4, 0)]), 0), (0, 0, 0));
}

#[test]
fn the_highest_of_a_crossing_decides_and_once_cleared_the_other() {
    for (higher, two) in [(1, [30, 10]), (2, [10, 30])] {
        let mut markers = stones(&two.map(|height| (4, 4, height)));
        assert_eq!(numbers(&markers, 20).0, 1);
        assert_eq!(numbers(&markers, 30).0, 0);
        markers.clear(higher).unwrap();
        assert_eq!(markers.as_slice()[0].height, 10);
        assert_eq!(numbers(&markers, 20).0, 0);
        assert_eq!(numbers(&markers, 9).0, 1);
    }
}

#[test]
fn a_freed_slot_keeps_no_height() {
    let mut slots = [Marker::new(1, 4, 4, 30), Marker::new(2, 5, 5, TALLEST)];
    let mut list = MarkersMut {
        slots: &mut slots,
        count: 2,
        width: 8,
        height: 8,
    };
    list.clear(1).unwrap();
    assert_eq!(slots, [Marker::new(2, 5, 5, TALLEST), Marker::default()]);
}

#[test]
fn shut_crossings_and_groups_may_rise_with_the_clearance() {
    let three = stones(&[(1, 1, 9), (2, 1, 1), (3, 1, 9)]);
    assert_eq!(numbers(&three, 0), (3, 0, 1));
    assert_eq!(numbers(&three, 5), (2, 1, 1));
    assert_eq!(numbers(&three, 9), (0, 0, 0));
    let four = stones(&[(1, 1, 9), (2, 1, 1), (3, 1, 1), (4, 1, 9)]);
    assert_eq!(numbers(&four, 0), (4, 0, 1));
    assert_eq!(numbers(&four, 5), (2, 0, 2));
}

/// Document 01's R with a low stone: what every asking says changes at its height, and nowhere
/// else.
#[test]
fn every_asking_is_for_one_cart() {
    let markers = stones(&[(3, 2, TALLEST), (4, 3, 20), (5, 2, TALLEST)]);
    let (home, place) = (at(0, 2), at(4, 5));
    let (s, d) = (at(4, 0), at(4, 5));
    let (low, high) = (Cart::new(19), Cart::new(20));
    assert_eq!(markers.distances(low, s).unwrap().north, Some(2));
    assert_eq!(markers.distances(high, at(4, 4)).unwrap().south, Some(2));
    assert_eq!(markers.distances(low, at(4, 4)).unwrap().south, Some(1));
    assert_eq!(markers.measure(low).unwrap().south()[4 * 8 + 4], 1);
    assert_eq!(markers.measure(high).unwrap().south()[4 * 8 + 4], 2);
    assert_eq!(
        markers.assured(low, at(4, 3), place),
        Err(Refusal::EndClosed)
    );
    assert_eq!(markers.assured(high, at(4, 3), place), Ok(true));
    assert_eq!(markers.hop(low, home, place), Err(Refusal::NotAssured));
    assert_eq!(
        markers.hop(low, at(3, 4), at(4, 5)).unwrap().iter().count(),
        2
    );
    assert_eq!(
        markers.hop(high, at(4, 3), at(4, 4)),
        Ok(Hops::One(at(4, 3)))
    );
    // Column 4 stays shut at (4,2): between the two rocks.
    for cart in [low, high, LOWEST] {
        assert_eq!(markers.region(cart, s, d), Err(Refusal::NoDrive));
    }
    let (s, d) = (at(3, 3), at(5, 4));
    assert_eq!(markers.region(low, s, d), Err(Refusal::EndClosed));
    assert!(markers.region(high, s, d).unwrap().contains(at(4, 3)));
    assert_eq!(markers.lines(low, s, d), Err(Refusal::EndClosed));
    assert_eq!(markers.lines(high, s, d).unwrap().unwrap().row, 3);
    let mut chooser = Chooser(0);
    assert_eq!(
        markers.drive(low, s, d, &mut chooser),
        Err(Refusal::EndClosed)
    );
    let drive = markers.drive(high, s, d, &mut chooser).unwrap();
    for cart in [high, Cart::new(21), Cart::new(TALLEST)] {
        assert_eq!(
            markers.check(cart, s, d, drive.numbers()),
            Ok(Finding::Accepted)
        );
    }
    let by_lines = markers.lines_drive(high, s, d, &mut chooser).unwrap();
    assert_eq!(by_lines.hops(), 3);
    assert_eq!(markers.write(low).unwrap()[7 + 4..], [8, 0x14, 0, 0]);
    assert_eq!(markers.write(high).unwrap()[7 + 4..], [0, 0x14, 0, 0]);
}

/// A cart of the greatest clearance finds everything open, and no end closed.
#[test]
fn the_greatest_clearance_opens_the_whole_map() {
    let full: Vec<_> = (0..64).map(|n| rock(n + 1, n % 8, n / 8)).collect();
    let list = MarkersRef {
        cart: Cart::new(TALLEST),
        ..eight(&full)
    };
    for (name, ask) in ASKINGS {
        let mut lent = Lent::new(64, 64);
        assert_eq!(ask(list, at(3, 2), at(5, 6), &mut lent), Ok(()), "{name}");
        assert_eq!(lent.labels, [0; 64], "{name}");
        let below = MarkersRef {
            cart: Cart::new(TALLEST - 1),
            ..list
        };
        let answer = ask(below, at(3, 2), at(5, 6), &mut lent);
        assert_eq!(lent.labels, [1; 64], "{name}");
        let closed = answer == Err(Refusal::EndClosed);
        assert_eq!(
            closed,
            !["label", "sweeps", "distances", "measure"].contains(&name)
        );
    }
}

/// What a list is refused for is looked for in low markers too: 3 whatever the clearance.
#[test]
fn a_low_marker_at_fault_is_refused_3() {
    let low = |id, x, y| Marker::new(id, x, y, 0);
    let lists = [
        [rock(1, 0, 0), low(0, 1, 1)],
        [rock(2, 0, 0), low(2, 1, 1)],
        [rock(2, 0, 0), low(1, 1, 1)],
        [rock(1, 0, 0), low(2, 8, 1)],
        [rock(1, 0, 0), low(2, 1, 8)],
    ];
    for (slots, clearance) in lists
        .iter()
        .flat_map(|list| [0, TALLEST].map(|c| (list, c)))
    {
        let list = MarkersRef {
            cart: Cart::new(clearance),
            ..eight(slots)
        };
        for (name, ask) in ASKINGS {
            let mut after = Lent::new(64, 64);
            let answer = ask(list, at(0, 0), at(1, 0), &mut after);
            assert_eq!(answer, Err(Refusal::BadList), "{name}");
            assert_eq!(after, Lent::new(64, 64), "{name}");
        }
        assert_eq!(list.write(&mut []), Err(Refusal::BadList));
    }
}

/// Two markers on one crossing are refused 16 whatever their heights and the clearance.
#[test]
fn writing_looks_at_all_markers_for_16() {
    for (one, other) in [(0, 0), (10, 30), (30, 10), (TALLEST, TALLEST)] {
        let mut markers = stones(&[(4, 4, one), (4, 4, other)]);
        for clearance in [0, 20, 30, TALLEST] {
            let cart = Cart::new(clearance);
            assert_eq!(markers.write(cart), Err(Refusal::SharedCrossing));
        }
        markers.clear(2).unwrap();
        assert!(markers.write(LOWEST).is_ok());
    }
}

/// A written map is read with the crossings that were rocks for the cart, as high as can be.
#[test]
fn a_map_is_written_for_a_cart() {
    let markers = stones(&[(0, 0, 5), (2, 0, 10), (4, 0, 15)]);
    for (clearance, places) in [(4, 3), (5, 2), (9, 2), (10, 1), (15, 0), (TALLEST, 0)] {
        let file = markers.write(Cart::new(clearance)).unwrap();
        let read = Markers::read(&file, 3).unwrap();
        let highest = markers.iter().filter(|marker| marker.height > clearance);
        let highest: Vec<_> = highest.map(|marker| marker.place()).collect();
        assert_eq!(read.len(), places);
        assert!(read.iter().map(|marker| marker.place()).eq(highest));
        assert!(read.iter().all(|marker| marker.height == TALLEST));
    }
}
