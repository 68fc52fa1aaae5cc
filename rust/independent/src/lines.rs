//! Document 02, "The crossing-lines test": a column and a row that are open throughout the
//! rectangle which two places span, and the drive by way of the crossing where they meet.
use crate::asking::{Asking, Labelled};
use crate::drives::{drive_of, region_of, Drove};
use crate::map::Crossing;
use crate::refusals::{first_that_applies, DONE};
use std::collections::BTreeSet;

/// What the test leaves. Beside a no, column and row are 0.
#[derive(Clone, Debug, PartialEq, Eq)]
pub struct Tested {
    pub refusal: u8,
    pub yes: bool,
    pub column: usize,
    pub row: usize,
    pub labels: Vec<u8>,
}

/// The rectangle that two places span: the crossings that lie on no detour between them.
fn spanned(on: &Labelled, s: Crossing, d: Crossing) -> Vec<Crossing> {
    let between = |c: &Crossing| s.distance(*c) + c.distance(d) == s.distance(d);
    on.map.crossings().filter(between).collect()
}

/// The lowest of the places on an axis of which no crossing of the rectangle is closed.
fn first_open(on: &Labelled, spanned: &[Crossing], axis: fn(&Crossing) -> usize) -> Option<usize> {
    let all: BTreeSet<usize> = spanned.iter().map(axis).collect();
    let closed = spanned.iter().filter(|c| !on.open(**c));
    let barred: BTreeSet<usize> = closed.map(axis).collect();
    all.difference(&barred).next().copied()
}

/// "the westmost such column and the southmost such row", if there is one of each.
pub fn lines_of(on: &Labelled, s: Crossing, d: Crossing) -> Option<Crossing> {
    let spanned = spanned(on, s, d);
    let column = first_open(on, &spanned, |c| c.x);
    let row = first_open(on, &spanned, |c| c.y);
    Some(Crossing::new(column?, row?))
}

/// "document 01's drive from s to there, then the one from there to d with the state handed on, the
/// meeting crossing written once."
pub fn joined(
    on: &Labelled,
    s: Crossing,
    meeting: Crossing,
    d: Crossing,
    state: u32,
) -> (Vec<Crossing>, u32) {
    let (mut route, state) = drive_of(&region_of(on, s, meeting), s, meeting, state);
    let (onward, state) = drive_of(&region_of(on, meeting, d), meeting, d, state);
    route.extend(&onward[1..]);
    (route, state)
}

/// The test of the two places asked about.
pub fn lines(asking: Asking) -> Tested {
    let mut after = Tested {
        refusal: asking.refusal(&[]),
        yes: false,
        column: 0,
        row: 0,
        labels: asking.labels.to_vec(),
    };
    if after.refusal != DONE {
        return after;
    }
    let on = asking.labelled();
    after.labels = on.sheet();
    after.refusal = first_that_applies(&[(8, &|| on.end_closed(asking.places))]);
    if after.refusal == DONE {
        if let Some(meeting) = lines_of(&on, asking.places[0], asking.places[1]) {
            (after.yes, after.column, after.row) = (true, meeting.x, meeting.y);
        }
    }
    after
}

/// The drive from the first place asked about to the second by way of where the lines meet. "19 ...
/// given after 8 and before 10, with the labels in the label sheet and region sheet, route buffer
/// and state unchanged"; "On success and at 10 the region sheet holds the region of s and d".
pub fn lines_drive(asking: Asking, region: &[u8], route: &[u16], state: u32) -> Drove {
    let mut after = Drove {
        refusal: asking.refusal(&[region.len()]),
        length: 0,
        labels: asking.labels.to_vec(),
        region: region.to_vec(),
        route: route.to_vec(),
        state,
    };
    if after.refusal != DONE {
        return after;
    }
    let on = asking.labelled();
    let (s, d) = (asking.places[0], asking.places[1]);
    let meeting = lines_of(&on, s, d);
    after.labels = on.sheet();
    after.refusal = first_that_applies(&[
        (8, &|| on.end_closed(asking.places)),
        (19, &|| meeting.is_none()),
        (10, &|| route.len() < s.distance(d) + 1),
    ]);
    if after.refusal == DONE || after.refusal == 10 {
        let region = region_of(&on, s, d);
        after.region = on.map.sheet(|c| u8::from(region.contains(&c)));
    }
    if let (DONE, Some(meeting)) = (after.refusal, meeting) {
        let (crossings, state) = joined(&on, s, meeting, d, state);
        for (slot, c) in after.route.iter_mut().zip(&crossings) {
            *slot = on.map.number(*c) as u16;
        }
        after.length = crossings.len();
        after.state = state;
    }
    after
}

#[cfg(test)]
mod tests {
    use super::*;
    use crate::checks::first_fault;
    use crate::distances::is_assured;
    use crate::drives::drawn;
    use crate::map::Map;
    use crate::markers::{Marker, TALLEST};

    fn labelled(rocks: &[(u16, u16)]) -> Labelled {
        let marker = |(id, &(x, y)): (u16, &(u16, u16))| Marker {
            id,
            x,
            y,
            height: TALLEST,
        };
        let list: Vec<_> = (1..).zip(rocks).map(marker).collect();
        Labelled::new(Map::new(8, 8), 0, &list)
    }

    fn at(x: usize, y: usize) -> Crossing {
        Crossing::new(x, y)
    }

    /// "Either test may say yes where the other says no."
    #[test]
    fn either_may_say_yes() {
        let (home, place) = (at(0, 0), at(2, 1));
        let on = labelled(&[(1, 0)]);
        assert_eq!(lines_of(&on, home, place), Some(at(0, 1)));
        assert!(!is_assured(&on, home, place));
        let on = labelled(&[(0, 1), (2, 0)]);
        assert_eq!(lines_of(&on, home, place), None);
        assert!(is_assured(&on, home, place));
    }

    /// Which way round the places are named makes no difference; rocks outside the rectangle make
    /// none; the westmost column and the southmost row are taken.
    #[test]
    fn westmost_and_southmost() {
        let on = labelled(&[(3, 2), (6, 6)]);
        assert_eq!(lines_of(&on, at(0, 0), at(4, 4)), Some(at(0, 0)));
        assert_eq!(lines_of(&on, at(4, 4), at(0, 0)), Some(at(0, 0)));
        assert_eq!(lines_of(&on, at(3, 0), at(4, 4)), Some(at(4, 0)));
        assert_eq!(lines_of(&on, at(3, 0), at(3, 4)), None);
        assert_eq!(lines_of(&on, at(3, 0), at(3, 1)), Some(at(3, 0)));
        assert_eq!(lines_of(&on, at(5, 5), at(5, 5)), Some(at(5, 5)));
    }

    /// Four hops in each part, and a draw at each of them: the state goes on.
    #[test]
    fn the_state_is_handed_on() {
        // Column 2 and row 2 alone are open throughout from (0, 0) to (4, 4).
        let on = labelled(&[(0, 4), (4, 0)]);
        let (s, d) = (at(0, 0), at(4, 4));
        let meeting = lines_of(&on, s, d).expect("there are lines");
        for state in 0..100 {
            let (route, after) = joined(&on, s, meeting, d, state);
            let numbers: Vec<u16> = route.iter().map(|&c| on.map.number(c) as u16).collect();
            assert_eq!(first_fault(&on, s, d, &numbers), (0, 0));
            assert_eq!(route.iter().filter(|&&c| c == meeting).count(), 1);
            assert_eq!(after, (0..8).fold(state, |z, _| drawn(z)));
        }
    }
}
