//! Refusals: each row of the table, and the lowest of several.
use crate::common::*;
use independent::asking::Asking;
use independent::distances::{assured, distances, measure};
use independent::drives::drive;
use independent::hops::hop;
use independent::labels::label;
use independent::map::Map;
use independent::markers::{bad_list, clear, enter, Marker, MOST, TALLEST};

#[test]
fn sizes() {
    for side in [0, 257, usize::MAX] {
        assert_eq!(label(&[], 9, Map::new(side, 3), 0, &[]).refusal, 1);
        assert_eq!(label(&[], 9, Map::new(3, side), 0, &[]).refusal, 1);
    }
    assert_eq!(
        label(&[], 0, Map::new(256, 256), 0, &[OLD; 65_536]).refusal,
        0
    );
}

#[test]
fn sheets_come_before_the_list() {
    let bad = [marker(0, 0, 0)];
    let after = label(&bad, 1, EIGHT, 0, &[OLD; 63]);
    assert_eq!((after.refusal, after.labels), (2, vec![OLD; 63]));
    assert_eq!(label(&bad, 1, EIGHT, 0, &[OLD; 65]).refusal, 2);
    assert_eq!(label(&bad, 1, EIGHT, 0, &[OLD; 64]).refusal, 3);
    let (labels, good) = ([OLD; 64], [OLD_NUMBER; 64]);
    for (wrong, length) in [(0, 63), (1, 65), (2, 32), (3, 128)] {
        let other = vec![OLD_NUMBER; length];
        let sheets = std::array::from_fn(|i| if i == wrong { &other[..] } else { &good[..] });
        let after = measure(asking(&[], &labels, &[]), sheets);
        assert_eq!(after.refusal, 2);
        assert_eq!(after.labels, labels);
    }
}

#[test]
fn lists() {
    let many: Vec<_> = (1..=9000).map(|id| marker(id, 0, 0)).collect();
    assert!(!bad_list(EIGHT, &many, MOST));
    assert!(bad_list(EIGHT, &many, MOST + 1));
    assert!(bad_list(EIGHT, &many[..3], 4));
    assert!(bad_list(EIGHT, &[], usize::MAX));
    for wrong in [
        [marker(0, 0, 0), marker(1, 0, 0)],
        [marker(2, 0, 0), marker(2, 1, 0)],
        [marker(2, 0, 0), marker(1, 1, 0)],
        [marker(1, 8, 0), marker(2, 1, 0)],
        [marker(1, 0, 0), marker(2, 1, 8)],
    ] {
        assert!(bad_list(EIGHT, &wrong, 2), "{wrong:?}");
    }
    // A slot past the count is not looked at.
    assert!(!bad_list(EIGHT, &[marker(1, 0, 0), marker(0, 99, 99)], 1));
}

#[test]
fn entering_and_clearing() {
    let list = [marker(3, 0, 0), marker(7, 1, 1), marker(0, 9, 9)];
    let entered = |count, id, place| enter(&list[..count], 2, EIGHT, id, place, TALLEST);
    assert_eq!(entered(3, 0, (0, 0)).refusal, 4);
    assert_eq!(entered(3, 7, (8, 0)).refusal, 4);
    assert_eq!(entered(3, 7, (0, usize::MAX)).refusal, 4);
    assert_eq!(entered(2, 7, (0, 0)).refusal, 5);
    assert_eq!(entered(2, 8, (0, 0)).refusal, 7);
    let done = entered(3, 5, (2, 6));
    assert_eq!((done.refusal, done.count), (0, 3));
    assert_eq!(
        done.list,
        [marker(3, 0, 0), marker(5, 2, 6), marker(7, 1, 1)]
    );
    let full: Vec<_> = (1..=9000).map(|id| marker(id, 0, 0)).collect();
    assert_eq!(enter(&full, MOST, EIGHT, 9999, (0, 0), 1).refusal, 7);
    assert_eq!(enter(&full, MOST, EIGHT, 8192, (0, 0), 1).refusal, 5);

    let refused = clear(&list, 2, EIGHT, 5);
    assert_eq!((refused.refusal, refused.count), (6, 0));
    assert_eq!(refused.list, list);
    assert_eq!(clear(&list, 2, EIGHT, 0).refusal, 6);
    let cleared = clear(&list, 2, EIGHT, 3);
    assert_eq!((cleared.refusal, cleared.count), (0, 1));
    assert_eq!(
        cleared.list,
        [marker(7, 1, 1), Marker::default(), marker(0, 9, 9)]
    );
}

#[test]
fn places_before_ends_before_drives_before_routes() {
    let list = markers(&[(3, 2), (5, 2), (4, 3)]);
    let sheet = [OLD; 64];
    let asked =
        |places: &[_], room: usize| drive(asking(&list, &sheet, places), &sheet, &vec![0; room], 1);
    assert_eq!(asked(&[at(8, 0), at(4, 2)], 0).refusal, 4);
    let closed_end = asked(&[at(0, 2), at(4, 2)], 0);
    assert_eq!((closed_end.refusal, closed_end.region), (8, sheet.to_vec()));
    let none = asked(&[at(0, 2), at(7, 2)], 0);
    assert_eq!((none.refusal, none.region), (9, vec![0; 64]));
    let short = asked(&[at(0, 0), at(7, 3)], 10);
    assert_eq!((short.refusal, short.state, short.length), (10, 1, 0));
    assert_eq!(short.region.iter().filter(|&&b| b == 1).count(), 20);
    assert_eq!(short.route, [0; 10]);
    assert_eq!(asked(&[at(0, 0), at(7, 3)], 11).refusal, 0);
}

#[test]
fn hops() {
    let list = markers(&R);
    let sheet = [OLD; 64];
    let hops = |home, place| {
        let after = hop(asking(&list, &sheet, &[home, place]));
        assert_eq!(after.labels, labelled(&R).sheet());
        (after.refusal, after.hops)
    };
    assert_eq!(hops(at(0, 2), at(0, 2)), (0, vec![]));
    assert_eq!(hops(at(0, 2), at(2, 5)), (0, vec![at(1, 5), at(2, 4)]));
    assert_eq!(hops(at(0, 2), at(0, 5)), (0, vec![at(0, 4)]));
    // North and east of the group one of the two hops homeward is closed.
    assert_eq!(hops(at(0, 0), at(4, 4)), (0, vec![at(3, 4)]));
    assert_eq!(hops(at(0, 0), at(6, 2)), (0, vec![at(6, 1)]));
    assert_eq!(hops(at(0, 2), at(4, 5)), (11, vec![]));
    assert_eq!(hops(at(0, 2), at(4, 2)), (8, vec![]));
    assert_eq!(hops(at(3, 2), at(7, 7)), (8, vec![]));
}

#[test]
fn askings_that_take_one_place_or_none() {
    let sheet = [OLD; 64];
    let list = markers(&R);
    let off = [at(8, 0)];
    let after = distances(asking(&list, &sheet, &off));
    assert_eq!(
        (after.refusal, after.four, after.labels),
        (4, [0; 4], sheet.to_vec())
    );
    let far = [at(0, 0), at(usize::MAX, 0)];
    assert_eq!(assured(asking(&list, &sheet, &far)).refusal, 4);
    let bad = Asking {
        count: 4,
        ..asking(&list, &sheet, &far)
    };
    assert_eq!(assured(bad).refusal, 3);
}
