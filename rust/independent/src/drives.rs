//! "Region and drive": shortest drives counted, the region, and a drive by the chooser's rule.
use crate::asking::{Asking, Labelled};
use crate::map::{Crossing, Crossings};
use crate::refusals::{first_that_applies, DONE};
use std::collections::BTreeMap;

/// What asking for the region leaves.
#[derive(Clone, Debug, PartialEq, Eq)]
pub struct Regioned {
    pub refusal: u8,
    pub labels: Vec<u8>,
    pub region: Vec<u8>,
}

/// What asking for a drive leaves: how much of the route is filled, both sheets, the whole route
/// and the state.
#[derive(Clone, Debug, PartialEq, Eq)]
pub struct Drove {
    pub refusal: u8,
    pub length: usize,
    pub labels: Vec<u8>,
    pub region: Vec<u8>,
    pub route: Vec<u16>,
    pub state: u32,
}

/// Drives are counted modulo this prime: on a map of 256 by 256 there are 510 over 255, a number of
/// 507 bits. Up to 64 by 64 the counts are the numbers themselves.
pub const MODULUS: u128 = (1 << 127) - 1;

/// For each crossing that a shortest drive from `from` towards `to` can come to: how many such
/// beginnings end there. A number of the next hop is the sum over the crossings before it.
pub fn beginnings(on: &Labelled, from: Crossing, to: Crossing) -> BTreeMap<Crossing, u128> {
    let mut front = BTreeMap::from([(from, 1u128)]);
    let mut all = front.clone();
    for _ in 0..from.distance(to) {
        let mut next = BTreeMap::new();
        for (&c, &ways) in &front {
            for n in nearer(on, c, to) {
                let sum = next.entry(n).or_insert(0);
                *sum = (*sum + ways) % MODULUS;
            }
        }
        all.extend(next.iter().map(|(&c, &ways)| (c, ways)));
        front = next;
    }
    all
}

/// The open neighbours one hop nearer.
fn nearer(on: &Labelled, c: Crossing, to: Crossing) -> impl Iterator<Item = Crossing> + '_ {
    on.map
        .neighbours(c)
        .filter(move |&n| on.open(n) && n.distance(to) + 1 == c.distance(to))
}

/// The crossings on at least one shortest drive between two open crossings: those with a beginning
/// from s and a beginning from d. The drives through a crossing are as many as the product of the
/// two.
pub fn region_of(on: &Labelled, s: Crossing, d: Crossing) -> Crossings {
    let from_s = beginnings(on, s, d);
    let from_d = beginnings(on, d, s);
    assert_eq!(from_s.get(&d), from_d.get(&s), "drives there and back");
    from_s
        .keys()
        .filter(|c| from_d.contains_key(c))
        .copied()
        .collect()
}

/// The state after one draw.
pub fn drawn(state: u32) -> u32 {
    ((1664525 * u64::from(state) + 1013904223) % 4_294_967_296) as u32
}

/// The crossings of the drive, s first and d last, and the state after it. The region is not empty.
/// Document 02, "Draw once for every hop": "the chooser draws at each hop, whether there is one
/// candidate or two; with one the draw is thrown away."
pub fn drive_of(
    region: &Crossings,
    s: Crossing,
    d: Crossing,
    mut state: u32,
) -> (Vec<Crossing>, u32) {
    let mut route = vec![s];
    let mut at = s;
    while at != d {
        let candidate = |n: &&Crossing| n.distance(at) == 1 && n.distance(d) + 1 == at.distance(d);
        let candidates: Vec<_> = region.iter().filter(candidate).copied().collect();
        state = drawn(state);
        at = match candidates[..] {
            [only] => only,
            [one, other] => {
                let top_bit = state >= 1 << 31;
                let along_row = if one.y == at.y { one } else { other };
                let along_column = if one.y == at.y { other } else { one };
                if top_bit {
                    along_column
                } else {
                    along_row
                }
            }
            _ => unreachable!("a region goes on to d from each of its crossings"),
        };
        route.push(at);
    }
    (route, state)
}

/// The region between the two places asked about.
pub fn region(asking: Asking, region: &[u8]) -> Regioned {
    let refusal = asking.refusal(&[region.len()]);
    if refusal != DONE {
        return Regioned {
            refusal,
            labels: asking.labels.to_vec(),
            region: region.to_vec(),
        };
    }
    let on = asking.labelled();
    let found = Found::new(&on, asking.places);
    Regioned {
        refusal: found.refusal(),
        labels: on.sheet(),
        region: found.sheet(&on, region),
    }
}

/// A drive from the first place asked about to the second.
pub fn drive(asking: Asking, region: &[u8], route: &[u16], state: u32) -> Drove {
    let mut after = Drove {
        refusal: asking.refusal(&[region.len()]),
        length: 0,
        labels: asking.labels.to_vec(),
        region: region.to_vec(),
        route: route.to_vec(),
        state,
    };
    if after.refusal != DONE {
        return after;
    }
    let on = asking.labelled();
    let found = Found::new(&on, asking.places);
    let (s, d) = (asking.places[0], asking.places[1]);
    after.labels = on.sheet();
    after.region = found.sheet(&on, region);
    after.refusal = first_that_applies(&[
        (found.refusal(), &|| found.refusal() != DONE),
        (10, &|| route.len() < s.distance(d) + 1),
    ]);
    if after.refusal == DONE {
        let (crossings, state) = drive_of(&found.region, s, d, state);
        for (slot, c) in after.route.iter_mut().zip(&crossings) {
            *slot = on.map.number(*c) as u16;
        }
        after.length = crossings.len();
        after.state = state;
    }
    after
}

/// What is known of two ends on a labelled map.
struct Found {
    closed_end: bool,
    region: Crossings,
}

impl Found {
    fn new(on: &Labelled, ends: &[Crossing]) -> Found {
        let closed_end = on.end_closed(ends);
        let region = if closed_end {
            Crossings::new()
        } else {
            region_of(on, ends[0], ends[1])
        };
        Found { closed_end, region }
    }

    /// 8, 9 or none.
    fn refusal(&self) -> u8 {
        first_that_applies(&[(8, &|| self.closed_end), (9, &|| self.region.is_empty())])
    }

    /// Unchanged at 8; otherwise 1 in the region and 0 outside, which is all 0 at 9.
    fn sheet(&self, on: &Labelled, before: &[u8]) -> Vec<u8> {
        if self.closed_end {
            return before.to_vec();
        }
        on.map.sheet(|c| u8::from(self.region.contains(&c)))
    }
}
