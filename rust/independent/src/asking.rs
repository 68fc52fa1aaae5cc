//! "Every asking labels afresh from the list": what the askings share.
use crate::labels::{closed, rocks, OPEN, ROCK, SHUT};
use crate::map::{Crossing, Crossings, Map};
use crate::markers::{bad_list, Marker};
use crate::refusals::first_that_applies;

/// What an asking is lent and told apart from its own buffers: the list, its count, the map, the
/// cart's ground clearance, the label sheet, and the places asked about.
#[derive(Clone, Copy, Debug)]
pub struct Asking<'a> {
    pub list: &'a [Marker],
    pub count: usize,
    pub map: Map,
    pub clearance: u16,
    pub labels: &'a [u8],
    pub places: &'a [Crossing],
}

impl Asking<'_> {
    /// Refusals 1 to 4, which change no lent byte. `others` are the lengths of the sheets lent
    /// beside the label sheet.
    pub fn refusal(&self, others: &[usize]) -> u8 {
        first_that_applies(&[
            (1, &|| self.map.bad_size()),
            (2, &|| {
                let bad = |&length: &usize| self.map.bad_sheet(length);
                bad(&self.labels.len()) || others.iter().any(bad)
            }),
            (3, &|| bad_list(self.map, self.list, self.count)),
            (4, &|| self.places.iter().any(|&p| !self.map.has(p))),
        ])
    }

    /// The labelling, once refusals 1 to 4 do not apply.
    pub fn labelled(&self) -> Labelled {
        Labelled::new(self.map, self.clearance, &self.list[..self.count])
    }
}

/// A map with one cart's rocks and closed crossings.
#[derive(Clone, Debug)]
pub struct Labelled {
    pub map: Map,
    pub rocks: Crossings,
    pub closed: Crossings,
    /// Whether a crossing is closed, by number: looking along whole rows asks it very often.
    closed_at: Vec<bool>,
}

impl Labelled {
    pub fn new(map: Map, clearance: u16, used: &[Marker]) -> Labelled {
        let rocks = rocks(used, clearance);
        let closed = closed(map, &rocks);
        let closed_at = map.sheet(|c| closed.contains(&c));
        Labelled {
            map,
            rocks,
            closed,
            closed_at,
        }
    }

    /// A crossing of the map that is not closed.
    pub fn open(&self, c: Crossing) -> bool {
        self.map.has(c) && !self.closed_at[self.map.number(c)]
    }

    /// Refusal 8: an end is closed.
    pub fn end_closed(&self, ends: &[Crossing]) -> bool {
        ends.iter().any(|&end| !self.open(end))
    }

    /// The label sheet.
    pub fn sheet(&self) -> Vec<u8> {
        self.map.sheet(|c| {
            if self.rocks.contains(&c) {
                ROCK
            } else if self.closed.contains(&c) {
                SHUT
            } else {
                OPEN
            }
        })
    }
}
