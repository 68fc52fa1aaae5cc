//! Region and drive: the settled examples 9 to 12, and what memory holds at refusals 8, 9 and 10.

mod common;

use common::{asking, at, eight, owned, slots, Lent, LOWEST, R, R_LABELS};
use grainbodkin::{Chooser, Label, Map, Markers, Refusal, TALLEST};

#[test]
fn the_region_of_r() {
    let markers = owned(&R);
    let region = markers.region(LOWEST, at(0, 0), at(7, 3)).unwrap();
    assert_eq!(region.len(), 20);
    assert_eq!(region.iter().count(), 20);
    for place in markers.map().places().filter(|place| place.x < 3) {
        assert_eq!(region.contains(place), place.y < 2, "{place}");
    }
    assert!(!region.contains(at(8, 0)));
    let ones = region.sheet().iter().filter(|byte| **byte == 1).count();
    assert_eq!((ones, region.map()), (20, markers.map()));
}

#[test]
fn a_drive_of_r_is_a_shortest_drive() {
    let markers = owned(&R);
    let labels = markers.label(LOWEST).unwrap();
    for state in 0..200 {
        let drive = markers
            .drive(LOWEST, at(0, 2), at(7, 4), &mut Chooser(state))
            .unwrap();
        let places: Vec<_> = drive.places().collect();
        assert_eq!((drive.hops(), places.len()), (9, 10));
        assert_eq!((places[0], places[9]), (at(0, 2), at(7, 4)));
        assert!(places.windows(2).all(|two| two[0].distance(two[1]) == 1));
        assert!(places
            .iter()
            .all(|place| labels.label(*place) == Some(Label::Open)));
    }
}

/// Example 11; and along a row, where every draw is thrown away.
#[test]
fn the_chooser_draws_at_each_hop() {
    let markers = owned(&[]);
    let mut chooser = Chooser(0);
    let drive = markers
        .drive(LOWEST, at(0, 0), at(2, 1), &mut chooser)
        .unwrap();
    assert_eq!(drive.numbers(), [0, 1, 2, 10]);
    assert_eq!(chooser, Chooser(0xD1CC_F6E9));
    let drive = markers
        .drive(LOWEST, at(0, 3), at(2, 3), &mut chooser)
        .unwrap();
    assert_eq!(drive.numbers(), [24, 25, 26]);
    assert_eq!(chooser, Chooser(0x6252_E503));
}

/// Equally long drives from one state, past rocks and without them, by way of the crossing lines
/// and straight: the same state after each.
#[test]
fn the_state_is_foretold_by_the_hops() {
    let (bare, rocky) = (owned(&[]), owned(&R));
    let draw = |z: u32| z.wrapping_mul(1664525).wrapping_add(1013904223);
    for state in 0..200 {
        let [mut a, mut b, mut c, mut d] = [Chooser(state); 4];
        bare.drive(LOWEST, at(0, 2), at(7, 4), &mut a).unwrap();
        rocky.drive(LOWEST, at(0, 2), at(7, 4), &mut b).unwrap();
        rocky
            .lines_drive(LOWEST, at(7, 4), at(0, 2), &mut c)
            .unwrap();
        rocky.drive(LOWEST, at(0, 0), at(7, 2), &mut d).unwrap();
        let nine_hops = (0..9).fold(state, |z, _| draw(z));
        assert_eq!([a, b, c, d], [Chooser(nine_hops); 4]);
    }
}

#[test]
fn the_filled_part_is_handed_back_and_the_rest_stays() {
    let mut route = [7; 6];
    let mut chooser = Chooser(0);
    let markers = owned(&[]);
    let filled = markers.drive_into(LOWEST, at(0, 0), at(2, 1), &mut route, &mut chooser);
    assert_eq!(filled.unwrap(), [0, 1, 2, 10]);
    assert_eq!(route, [0, 1, 2, 10, 7, 7]);
}

#[test]
fn one_crossing_to_itself() {
    let mut markers = Markers::new(Map::new(1, 1).unwrap(), 1);
    let (here, mut chooser) = (at(0, 0), Chooser(5));
    let drive = markers.drive(LOWEST, here, here, &mut chooser).unwrap();
    assert_eq!((drive.numbers(), drive.hops()), (&[0][..], 0));
    markers.enter(1, here, TALLEST).unwrap();
    let refused = markers.drive(LOWEST, here, here, &mut chooser);
    assert_eq!(refused, Err(Refusal::EndClosed));
    assert_eq!(markers.region(LOWEST, here, here), Err(Refusal::EndClosed));
    assert_eq!(chooser, Chooser(5));
}

#[test]
fn at_8_only_the_labels_change() {
    let slots = slots(&R);
    for name in ["region", "drive"] {
        for (s, d) in [(at(4, 2), at(0, 0)), (at(0, 0), at(5, 3))] {
            let mut after = Lent::new(64, 64);
            let answer = asking(name)(eight(&slots), s, d, &mut after);
            assert_eq!(answer, Err(Refusal::EndClosed));
            let labels = R_LABELS.to_vec();
            assert_eq!(
                after,
                Lent {
                    labels,
                    ..Lent::new(64, 64)
                },
                "{name}"
            );
        }
    }
}

#[test]
fn at_9_the_region_is_all_0() {
    let slots = slots(&R);
    for name in ["region", "drive"] {
        // The route is short too: 9 is lower than 10.
        let mut after = Lent::new(64, 1);
        let answer = asking(name)(eight(&slots), at(0, 2), at(7, 2), &mut after);
        assert_eq!(answer, Err(Refusal::NoDrive));
        let (labels, region) = (R_LABELS.to_vec(), vec![0; 64]);
        assert_eq!(
            after,
            Lent {
                labels,
                region,
                ..Lent::new(64, 1)
            },
            "{name}"
        );
    }
}

#[test]
fn at_10_the_region_stands() {
    let markers = owned(&R);
    let (s, d) = (at(0, 0), at(7, 3));
    let region = markers.region(LOWEST, s, d).unwrap().sheet().to_vec();
    for room in [0, 10] {
        let mut after = Lent::new(64, room);
        let answer = asking("drive")(markers.lend(LOWEST), s, d, &mut after);
        assert_eq!(answer, Err(Refusal::ShortRoute));
        let (labels, region) = (R_LABELS.to_vec(), region.clone());
        assert_eq!(
            after,
            Lent {
                labels,
                region,
                ..Lent::new(64, room)
            }
        );
    }
    let mut after = Lent::new(64, 11);
    assert_eq!(
        asking("drive")(markers.lend(LOWEST), s, d, &mut after),
        Ok(())
    );
    assert_eq!((after.labels, after.region), (R_LABELS.to_vec(), region));
}
