//! Document 02, "Drives drawn by the dispatch desk": a drawn list of crossing numbers is accepted,
//! or the position of the first crossing at fault and the reason are told.
use crate::asking::{Asking, Labelled};
use crate::map::Crossing;
use crate::refusals::{first_that_applies, DONE};

/// What checking a drawn list leaves. An accepted list has reason 0 and position 0.
#[derive(Clone, Debug, PartialEq, Eq)]
pub struct Checked {
    pub refusal: u8,
    pub reason: u8,
    pub position: usize,
    pub labels: Vec<u8>,
}

/// The crossing of the map that has this number.
fn crossing(on: &Labelled, number: u16) -> Option<Crossing> {
    let number = usize::from(number);
    let c = Crossing::new(number % on.map.width, number / on.map.width);
    (on.map.has(c) && on.map.number(c) == number).then_some(c)
}

/// The first reason that applies at a position, or 0: 1 wrong start, 2 off the map, 3 closed, 4 not
/// a neighbour, 5 not nearer d, 6 ended early, 7 went on after d. "A crossing after d is always at
/// fault as going on; at any other the reasons are tried in the order given."
fn reason(on: &Labelled, s: Crossing, d: Crossing, drawn: &[u16], position: usize) -> u8 {
    let is_d = |n: &u16| crossing(on, *n) == Some(d);
    let arrived = drawn[..position].iter().any(is_d);
    let Some(&number) = drawn.get(position) else {
        return first_that_applies(&[(6, &|| !arrived)]);
    };
    let here = crossing(on, number);
    let before = position.checked_sub(1).and_then(|p| crossing(on, drawn[p]));
    let hop = here.zip(before);
    first_that_applies(&[
        (7, &|| arrived),
        (1, &|| position == 0 && here != Some(s)),
        (2, &|| here.is_none()),
        (3, &|| here.is_some_and(|c| !on.open(c))),
        (4, &|| {
            hop.is_some_and(|(c, b)| on.map.neighbours(b).all(|n| n != c))
        }),
        (5, &|| {
            hop.is_some_and(|(c, b)| c.distance(d) >= b.distance(d))
        }),
    ])
}

/// The reason and the position of the first fault, or zeros.
pub fn first_fault(on: &Labelled, s: Crossing, d: Crossing, drawn: &[u16]) -> (u8, usize) {
    for position in 0..=drawn.len() {
        let reason = reason(on, s, d, drawn, position);
        if reason != 0 {
            return (reason, position);
        }
    }
    (0, 0)
}

/// The check of a list drawn from the first place asked about to the second.
pub fn check(asking: Asking, drawn: &[u16]) -> Checked {
    let mut after = Checked {
        refusal: asking.refusal(&[]),
        reason: 0,
        position: 0,
        labels: asking.labels.to_vec(),
    };
    if after.refusal != DONE {
        return after;
    }
    let on = asking.labelled();
    let (s, d) = (asking.places[0], asking.places[1]);
    after.labels = on.sheet();
    after.refusal = first_that_applies(&[(8, &|| on.end_closed(asking.places))]);
    if after.refusal == DONE {
        (after.reason, after.position) = first_fault(&on, s, d, drawn);
    }
    after
}

#[cfg(test)]
mod tests {
    use super::*;
    use crate::drives::{drive_of, region_of};
    use crate::map::Map;
    use crate::markers::{Marker, TALLEST};

    fn labelled(rocks: &[(u16, u16)]) -> Labelled {
        let marker = |(id, &(x, y)): (u16, &(u16, u16))| Marker {
            id,
            x,
            y,
            height: TALLEST,
        };
        let list: Vec<_> = (1..).zip(rocks).map(marker).collect();
        Labelled::new(Map::new(8, 8), 0, &list)
    }

    fn found(on: &Labelled, s: (usize, usize), d: (usize, usize), drawn: &[u16]) -> (u8, usize) {
        first_fault(on, Crossing::new(s.0, s.1), Crossing::new(d.0, d.1), drawn)
    }

    /// A list for each reason, and for the ends of their ranges.
    #[test]
    fn reasons() {
        let none = labelled(&[]);
        let r = labelled(&[(3, 2), (4, 3), (5, 2)]);
        assert_eq!(found(&none, (0, 0), (2, 1), &[0, 1, 2, 10]), (0, 0));
        assert_eq!(found(&none, (3, 1), (3, 1), &[11]), (0, 0));
        assert_eq!(found(&none, (0, 0), (2, 1), &[64]), (1, 0));
        assert_eq!(found(&none, (7, 6), (7, 7), &[55, 64]), (2, 1));
        assert_eq!(found(&none, (0, 0), (2, 1), &[0, 1, 65535]), (2, 2));
        assert_eq!(found(&r, (0, 0), (7, 3), &[0, 19]), (3, 1));
        assert_eq!(found(&none, (7, 0), (0, 1), &[7, 8]), (4, 1));
        assert_eq!(found(&none, (0, 0), (2, 1), &[0, 0]), (4, 1));
        assert_eq!(found(&none, (0, 0), (2, 1), &[0, 1, 0]), (5, 2));
        assert_eq!(found(&none, (0, 0), (2, 1), &[]), (6, 0));
        assert_eq!(found(&none, (0, 0), (2, 1), &[0, 1, 2]), (6, 3));
        assert_eq!(found(&none, (3, 1), (3, 1), &[11, 65535]), (7, 1));
        assert_eq!(found(&r, (2, 1), (2, 2), &[10, 18, 19]), (7, 2));
    }

    /// Every drive that is made is accepted, and cut short, begun late or gone on with it is not.
    #[test]
    fn drives_are_accepted() {
        let on = labelled(&[(3, 2), (4, 3), (5, 2)]);
        let (s, d) = (Crossing::new(0, 2), Crossing::new(7, 4));
        let region = region_of(&on, s, d);
        for state in 0..100 {
            let (route, _) = drive_of(&region, s, d, state);
            let drawn: Vec<u16> = route.iter().map(|&c| on.map.number(c) as u16).collect();
            assert_eq!(first_fault(&on, s, d, &drawn), (0, 0));
            assert_eq!(first_fault(&on, s, d, &drawn[..9]), (6, 9));
            assert_eq!(first_fault(&on, s, d, &drawn[1..]), (1, 0));
            let on_and_on = [&drawn[..], &[38]].concat();
            assert_eq!(first_fault(&on, s, d, &on_and_on), (7, 10));
        }
    }
}
