//! Document 02, "How many sweeps did it take?": the whole map is swept, and swept again, until a
//! sweep changes nothing.
use crate::asking::Asking;
use crate::labels::{rocks, OPEN, ROCK, SHUT};
use crate::map::{Crossing, Crossings, Map};
use crate::refusals::DONE;

/// What the call leaves.
#[derive(Clone, Debug, PartialEq, Eq)]
pub struct Swept {
    pub refusal: u8,
    pub sweeps: usize,
    pub labels: Vec<u8>,
}

/// A state: whether each crossing is closed, by number.
pub type State = Vec<bool>;

/// "all crossings are judged together on the state before it, and those open ones with two or more
/// closed neighbours become closed."
pub fn sweep(map: Map, before: &State) -> State {
    let closed = |c: Crossing| before[map.number(c)];
    map.sheet(|c| closed(c) || map.neighbours(c).filter(|&n| closed(n)).count() >= 2)
}

/// "the sweeps that changed something, starting from the rocks alone", and the last state.
pub fn sweeps_of(map: Map, rocks: &Crossings) -> (usize, State) {
    let mut state: State = map.sheet(|c| rocks.contains(&c));
    let mut changed = 0;
    loop {
        let after = sweep(map, &state);
        if after == state {
            return (changed, state);
        }
        state = after;
        changed += 1;
    }
}

/// The number of sweeps over the map asked about. "the last state is the labelling"
pub fn sweeps(asking: Asking) -> Swept {
    let mut after = Swept {
        refusal: asking.refusal(&[]),
        sweeps: 0,
        labels: asking.labels.to_vec(),
    };
    if after.refusal != DONE {
        return after;
    }
    let rocks = rocks(&asking.list[..asking.count], asking.clearance);
    let (sweeps, last) = sweeps_of(asking.map, &rocks);
    after.sweeps = sweeps;
    after.labels = asking.map.sheet(|c| match last[asking.map.number(c)] {
        true if rocks.contains(&c) => ROCK,
        true => SHUT,
        false => OPEN,
    });
    after
}
