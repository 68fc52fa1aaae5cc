//! Assurance and hops homeward: the settled example 8, refusals 8 and 11, and the way home.

mod common;

use common::{asking, at, eight, owned, slots, Lent, LOWEST, R, R_LABELS};
use grainbodkin::{Hops, Markers, Place, Refusal};

#[test]
fn home_is_assured_up_to_the_closed_crossing() {
    let markers = owned(&R);
    let home = at(0, 2);
    assert_eq!(markers.assured(LOWEST, home, at(2, 5)), Ok(true));
    assert_eq!(markers.assured(LOWEST, home, at(3, 5)), Ok(true));
    assert_eq!(markers.assured(LOWEST, home, at(4, 5)), Ok(false));
    assert_eq!(markers.assured(LOWEST, home, home), Ok(true));
}

#[test]
fn the_answer_names_every_permitted_hop() {
    let markers = owned(&R);
    let two = Hops::Two {
        east_west: at(5, 5),
        north_south: at(6, 4),
    };
    assert_eq!(markers.hop(LOWEST, at(0, 4), at(6, 5)), Ok(two));
    assert!(two.iter().eq([at(5, 5), at(6, 4)]));
    // From (4,4) south stands the rock (4,3).
    let one = Hops::One(at(3, 4));
    assert_eq!(markers.hop(LOWEST, at(0, 0), at(4, 4)), Ok(one));
    assert!(one.iter().eq([at(3, 4)]));
    assert_eq!(markers.hop(LOWEST, at(1, 1), at(1, 1)), Ok(Hops::There));
    assert_eq!((Hops::There.first(), Hops::There.iter().count()), (None, 0));
}

/// Every way home from an assured place, by every hop that is told; each is followed to its end.
fn walk(markers: &Markers, home: Place, place: Place) {
    let hops = markers.hop(LOWEST, home, place).unwrap();
    assert_eq!(hops == Hops::There, place == home);
    for next in hops.iter() {
        assert_eq!(next.distance(place), 1);
        assert_eq!(next.distance(home) + 1, place.distance(home));
        walk(markers, home, next);
    }
}

#[test]
fn every_hop_from_an_assured_place_leads_home() {
    let markers = owned(&R);
    let home = at(1, 0);
    let mut places = 0;
    for place in markers.map().places() {
        if markers.assured(LOWEST, home, place) == Ok(true) {
            walk(&markers, home, place);
            places += 1;
        }
    }
    // Every open crossing: no closed one stands in home's row or column.
    assert_eq!(places, 64 - 6);
}

#[test]
fn a_closed_end_is_refused_8_and_the_sheet_holds_the_labels() {
    let slots = slots(&R);
    for (home, place) in [
        (at(4, 2), at(0, 0)),
        (at(0, 0), at(3, 2)),
        (at(3, 3), at(3, 3)),
    ] {
        for name in ["assured", "hop"] {
            let mut after = Lent::new(64, 0);
            let answer = asking(name)(eight(&slots), home, place, &mut after);
            assert_eq!(answer, Err(Refusal::EndClosed), "{name}");
            assert_eq!(after.labels, R_LABELS, "{name}");
        }
    }
}

#[test]
fn a_hop_without_assurance_is_refused_11_and_the_sheet_holds_the_labels() {
    let mut labels = [9; 64];
    let answer = eight(&slots(&R)).hop(at(0, 2), at(4, 5), &mut labels);
    assert_eq!(answer, Err(Refusal::NotAssured));
    assert_eq!(labels, R_LABELS);
}

#[test]
fn answers_leave_the_labels() {
    for name in ["assured", "hop"] {
        let mut after = Lent::new(64, 0);
        let answer = asking(name)(eight(&slots(&R)), at(0, 2), at(2, 5), &mut after);
        assert_eq!(answer, Ok(()));
        assert_eq!(after.labels, R_LABELS, "{name}");
    }
}
