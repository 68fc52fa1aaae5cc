//! Crossing lines, and the drive by way of where they meet.

mod common;

use common::{asking, at, eight, owned, slots, Lent, LOWEST, R, R_LABELS};
use grainbodkin::{Chooser, Finding, Lines, Refusal};

fn lines(column: usize, row: usize) -> Option<Lines> {
    Some(Lines { column, row })
}

#[test]
fn the_westmost_column_and_the_southmost_row() {
    let markers = owned(&R);
    assert_eq!(markers.lines(LOWEST, at(0, 2), at(7, 4)), Ok(lines(0, 4)));
    assert_eq!(markers.lines(LOWEST, at(7, 4), at(0, 2)), Ok(lines(0, 4)));
    assert_eq!(markers.lines(LOWEST, at(4, 4), at(7, 0)), Ok(lines(6, 0)));
    assert_eq!(markers.lines(LOWEST, at(4, 0), at(4, 5)), Ok(None));
    assert_eq!(markers.lines(LOWEST, at(0, 2), at(7, 2)), Ok(None));
    assert_eq!(markers.lines(LOWEST, at(1, 1), at(1, 1)), Ok(lines(1, 1)));
    assert_eq!(lines(6, 0).unwrap().meeting(), at(6, 0));
}

/// From many states the drive is accepted by the check, passes the meeting crossing once, and is
/// document 01's drive in two parts.
#[test]
fn the_drive_goes_by_way_of_the_meeting_crossing() {
    let markers = owned(&R);
    let (s, d) = (at(4, 4), at(7, 0));
    let meeting = markers.lines(LOWEST, s, d).unwrap().unwrap().meeting();
    for state in 0..200 {
        let mut chooser = Chooser(state);
        let drive = markers.lines_drive(LOWEST, s, d, &mut chooser).unwrap();
        assert_eq!(
            markers.check(LOWEST, s, d, drive.numbers()),
            Ok(Finding::Accepted)
        );
        assert_eq!(drive.places().filter(|&place| place == meeting).count(), 1);
        let mut parts = Chooser(state);
        let first = markers.drive(LOWEST, s, meeting, &mut parts).unwrap();
        let onward = markers.drive(LOWEST, meeting, d, &mut parts).unwrap();
        let joined = [first.numbers(), &onward.numbers()[1..]].concat();
        assert_eq!((drive.numbers(), chooser), (&joined[..], parts));
    }
}

/// 19 before 10, and what each leaves.
#[test]
fn what_refusals_leave() {
    let slots = slots(&R);
    let drive = asking("lines_drive");
    for (d, numbers, refusal) in [
        (at(4, 2), 0, Refusal::EndClosed),
        (at(7, 2), 0, Refusal::NoLines),
        (at(7, 2), 64, Refusal::NoLines),
        (at(7, 4), 9, Refusal::ShortRoute),
    ] {
        let before = Lent::new(64, numbers);
        let mut after = before.clone();
        let answer = drive(eight(&slots), at(0, 2), d, &mut after);
        assert_eq!(answer, Err(refusal));
        let mut expected = Lent {
            labels: R_LABELS.to_vec(),
            ..before
        };
        if refusal == Refusal::ShortRoute {
            let region = owned(&R).region(LOWEST, at(0, 2), d).unwrap();
            expected.region = region.sheet().to_vec();
        }
        assert_eq!(after, expected, "{refusal}");
    }
}
