//! "Labels": rocks, shut and open crossings, groups.
use crate::asking::Labelled;
use crate::map::{Crossings, Map};
use crate::markers::{bad_list, Marker};
use crate::refusals::{first_that_applies, DONE};

/// A label sheet's bytes.
pub const OPEN: u8 = 0;
pub const ROCK: u8 = 1;
pub const SHUT: u8 = 2;

/// What labelling leaves.
#[derive(Clone, Debug, PartialEq, Eq)]
pub struct Labelling {
    pub refusal: u8,
    pub rocks: usize,
    pub shut: usize,
    pub groups: usize,
    pub labels: Vec<u8>,
}

/// The crossings on which at least one marker stands that stops a cart of this clearance.
pub fn rocks(used: &[Marker], clearance: u16) -> Crossings {
    let stopping = used.iter().filter(|m| m.stops(clearance));
    stopping.map(|m| m.crossing()).collect()
}

/// The smallest set that holds all rocks and every crossing with two or more closed neighbours:
/// from the rocks, sweeps until one adds nothing. A sweep looks at the neighbours of what the one
/// before it added; a crossing that has none of these has as many closed neighbours as before.
pub fn closed(map: Map, rocks: &Crossings) -> Crossings {
    let mut closed = rocks.clone();
    let mut added = rocks.clone();
    while !added.is_empty() {
        let near = added.iter().flat_map(|&c| map.neighbours(c));
        added = near
            .filter(|c| !closed.contains(c))
            .filter(|&c| map.neighbours(c).filter(|n| closed.contains(n)).count() >= 2)
            .collect();
        closed.extend(&added);
    }
    closed
}

/// The groups: whole sets of closed crossings connected through neighbours, each found by flooding
/// from one of its crossings.
pub fn groups(map: Map, closed: &Crossings) -> Vec<Crossings> {
    let mut left = closed.clone();
    let mut groups = Vec::new();
    while let Some(start) = left.pop_first() {
        let mut group = Crossings::from([start]);
        let mut edge = vec![start];
        while let Some(c) = edge.pop() {
            for n in map.neighbours(c) {
                if left.remove(&n) {
                    group.insert(n);
                    edge.push(n);
                }
            }
        }
        groups.push(group);
    }
    groups
}

/// Labels the map for a cart of this clearance.
pub fn label(list: &[Marker], count: usize, map: Map, clearance: u16, labels: &[u8]) -> Labelling {
    let refusal = first_that_applies(&[
        (1, &|| map.bad_size()),
        (2, &|| map.bad_sheet(labels.len())),
        (3, &|| bad_list(map, list, count)),
    ]);
    if refusal != DONE {
        return Labelling {
            refusal,
            rocks: 0,
            shut: 0,
            groups: 0,
            labels: labels.to_vec(),
        };
    }
    let labelled = Labelled::new(map, clearance, &list[..count]);
    Labelling {
        refusal,
        rocks: labelled.rocks.len(),
        shut: labelled.closed.len() - labelled.rocks.len(),
        groups: groups(map, &labelled.closed).len(),
        labels: labelled.sheet(),
    }
}

#[cfg(test)]
mod tests {
    use super::*;
    use crate::map::Crossing;

    /// Sweeps over the whole map until one adds nothing, as the definition has it.
    fn by_whole_sweeps(map: Map, rocks: &Crossings) -> Crossings {
        let mut closed = rocks.clone();
        loop {
            let two = |&c: &Crossing| map.neighbours(c).filter(|n| closed.contains(n)).count() >= 2;
            let more: Vec<_> = map.crossings().filter(two).collect();
            let before = closed.len();
            closed.extend(more);
            if closed.len() == before {
                return closed;
            }
        }
    }

    /// Looking only near what was added leaves nothing out: every small map.
    #[test]
    fn sweeps_near_what_was_added_are_enough() {
        for (width, height) in [(1, 1), (5, 1), (3, 3), (4, 3), (2, 6)] {
            let map = Map::new(width, height);
            for rocks in 0..1u32 << (width * height) {
                let rock = |c: &Crossing| rocks >> map.number(*c) & 1 == 1;
                let rocks: Crossings = map.crossings().filter(rock).collect();
                assert_eq!(closed(map, &rocks), by_whole_sweeps(map, &rocks));
            }
        }
    }
}
