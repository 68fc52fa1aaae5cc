//! What was reached: how often each call ended with each number, and how often each thing that
//! cases are made of was used.
use crate::case::{After, Call, Case, CALLS};
use crate::{drawings, edits, harms, lists, making, mapfiles, maps, picturefiles, places, stones};
use independent::asking::Labelled;
use independent::distances::{is_assured, NONE};
use independent::drives::region_of;
use independent::labels::SHUT;
use independent::lines::lines_of;
use independent::markers::MOST;
use std::collections::BTreeMap;

/// Refusal numbers go to this.
const LAST: usize = 19;

/// A run with fewer cases is not held to reach everything.
pub const WHOLE: u64 = 100_000;

pub struct Tally {
    ends: BTreeMap<&'static str, [u64; LAST + 1]>,
    notes: BTreeMap<&'static str, u64>,
    /// Of each call, cases with a stone one lower than the clearance, equal to it, one higher.
    beside: BTreeMap<&'static str, [u64; 3]>,
    pub cases: u64,
    pub successes: u64,
    pub strange: Vec<String>,
}

impl Tally {
    pub fn new() -> Tally {
        let ends = CALLS.map(|call| (call.name(), [0; LAST + 1]));
        Tally {
            ends: BTreeMap::from(ends),
            notes: names().into_iter().map(|name| (name, 0)).collect(),
            beside: BTreeMap::new(),
            cases: 0,
            successes: 0,
            strange: Vec::new(),
        }
    }

    /// Counts a case by what the library answered.
    pub fn count(&mut self, case: &Case, after: &After) {
        self.cases += 1;
        self.successes += u64::from(after.refusal == 0);
        if !case.call.possible().contains(&after.refusal) {
            let name = case.call.name();
            let line = format!("{name} ended with {}, which is not its", after.refusal);
            self.strange.push(line);
            return;
        }
        let ends = self.ends.get_mut(case.call.name()).expect("every call");
        ends[usize::from(after.refusal)] += 1;
        if case.call.for_a_cart() {
            let beside = self.beside.entry(case.call.name()).or_default();
            for (count, seen) in beside.iter_mut().zip(stones::beside(case)) {
                *count += u64::from(seen);
            }
        }
        let mut notes = case.notes.clone();
        notes.extend(kinds(case, after));
        notes.extend(stones::kinds(case, after));
        notes.extend(case.before.list.is_empty().then_some("a list of no slots"));
        notes.sort_unstable();
        notes.dedup();
        for note in notes {
            *self.notes.entry(note).or_insert(0) += 1;
        }
    }

    /// What is possible and was never reached.
    pub fn missing(&self) -> Vec<String> {
        let mut missing = Vec::new();
        for call in CALLS {
            for &number in call.possible() {
                if self.ends[call.name()][usize::from(number)] == 0 {
                    missing.push(format!("{} never ended with {number}", call.name()));
                }
            }
        }
        for call in CALLS.iter().filter(|call| call.for_a_cart()) {
            let beside = self.beside.get(call.name()).copied().unwrap_or_default();
            if beside.contains(&0) {
                missing.push(format!("{}: no stone beside the clearance", call.name()));
            }
        }
        let unused = self.notes.iter().filter(|(_, &count)| count == 0);
        missing.extend(unused.map(|(name, _)| format!("never: {name}")));
        missing
    }

    /// The table, call by refusal number; a dot where the number is not the call's.
    pub fn print(&self) {
        print!("{:<10}", "");
        for number in 0..=LAST {
            print!("{number:>7}");
        }
        println!();
        for call in CALLS {
            print!("{:<10}", call.name());
            for number in 0..=LAST {
                if call.possible().contains(&(number as u8)) {
                    print!("{:>7}", self.ends[call.name()][number]);
                } else {
                    print!("{:>7}", ".");
                }
            }
            println!();
        }
    }

    /// How often stones stood beside the clearance, call by call.
    pub fn print_stones(&self) {
        println!("cases with a stone one lower than the clearance, as high, one higher:");
        for (name, [lower, equal, higher]) in &self.beside {
            println!("{name:<10}{lower:>7}{equal:>7}{higher:>7}");
        }
    }

    /// Everything that cases are made of, with how many cases of each.
    pub fn print_notes(&self) {
        println!("made of, with how many cases of each:");
        for (name, count) in &self.notes {
            println!("{count:>8}  {name}");
        }
    }
}

/// Kinds of success that a refusal number does not tell apart.
fn kinds(case: &Case, after: &After) -> Option<&'static str> {
    let first = after.answer.first().map_or(0, |(_, value)| *value);
    match (case.call, after.refusal, first) {
        (Call::Assured, 0, 0) => Some("answered: not assured"),
        (Call::Assured, 0, _) => Some("answered: assured"),
        (Call::Hop, 0, 0) => Some("answered: there"),
        (Call::Hop, 0, 1) => Some("answered: one hop"),
        (Call::Hop, 0, _) => Some("answered: two hops"),
        (Call::Lines, 0, yes) => Some(assurances(case, yes != 0)),
        (Call::LinesDrive, 0, 1) => Some("answered: a drive by lines of no hops"),
        (Call::LinesDrive, 0, _) => Some(by_way(case)),
        (Call::LinesDrive, 19, _) if short(case) => Some("answered: 19 before 10"),
        (Call::Drive, 0, 1) => Some("answered: a drive of no hops"),
        (Call::Drive, 0, 301..) => Some("answered: a drive of 300 hops or more"),
        (Call::Drive, 0, 61..) => Some("answered: a drive of 60 hops or more"),
        (Call::Measure, 0, _) => longest(&after.memory.sheets),
        (Call::Label, 0, _) => many(&after.answer),
        (Call::Sweeps, 0, sweeps) => Some(swept(sweeps, &after.memory.labels)),
        (Call::Check, 0, reason) => Some(found(reason, after.answer[1].1, case.before.drawn.len())),
        (Call::Enter, 7, _) if case.count < case.before.list.len() => {
            Some("answered: no slot by the limit, though the list has one")
        }
        (Call::Read, 7, _) if case.before.list.len() > MOST => {
            Some("answered: a file's rocks over the limit, though the list is longer")
        }
        _ => None,
    }
}

/// The kind of the longest distance in four sheets, where it is long.
fn longest(sheets: &[Vec<u16>; 4]) -> Option<&'static str> {
    let numbers = sheets.iter().flatten().filter(|&&n| n != NONE);
    match numbers.max() {
        Some(255) => Some("answered: a distance of 255"),
        Some(64..) => Some("answered: a distance of 64 or more"),
        _ => None,
    }
}

/// Whether a labelling's closed crossings are more than a map 64 by 64 has crossings.
fn many(answer: &[(&'static str, usize)]) -> Option<&'static str> {
    match answer[..] {
        [(_, rocks), (_, shut), _] if rocks + shut > 4_096 => Some(MANY_CLOSED),
        _ => None,
    }
}

const MANY_CLOSED: &str = "answered: over 4,096 closed crossings";

/// Numbers of sweeps: "never more than the shut crossings. With nothing shut it is 0."
const SWEPT: [&str; 6] = [
    "answered: no sweeps, nothing shut",
    "answered: one sweep, one shut",
    "answered: as many sweeps as shut crossings, more than one",
    "answered: one sweep, more shut",
    "answered: fewer sweeps than shut crossings, more than one",
    "answered: 100 sweeps or more",
];

/// By the number and the label sheet.
fn swept(sweeps: usize, labels: &[u8]) -> &'static str {
    let shut = labels.iter().filter(|&&label| label == SHUT).count();
    match sweeps {
        0 => SWEPT[0],
        1 if shut == 1 => SWEPT[1],
        _ if sweeps == shut => SWEPT[2],
        1 => SWEPT[3],
        2..=99 => SWEPT[4],
        _ => SWEPT[5],
    }
}

/// Pairs of open places by the two tests: "Either test may say yes where the other says no."
const TESTS: [&str; 5] = [
    "pairs: crossing lines and assured",
    "pairs: crossing lines alone",
    "pairs: assured alone",
    "pairs: neither, though there is a drive",
    "pairs: neither, and no drive",
];

/// s as home, d as the place.
fn assurances(case: &Case, lines: bool) -> &'static str {
    let on = Labelled::new(case.map, case.clearance, &case.before.list[..case.count]);
    let [s, d] = case.places;
    let drive = || !region_of(&on, s, d).is_empty();
    match (lines, is_assured(&on, s, d)) {
        (true, true) => TESTS[0],
        (true, false) => TESTS[1],
        (false, true) => TESTS[2],
        (false, false) if drive() => TESTS[3],
        (false, false) => TESTS[4],
    }
}

/// Where the lines meet: at an end, or on the way.
const MEETINGS: [&str; 2] = [
    "answered: a drive by lines that meet at an end",
    "answered: a drive by lines that meet on the way",
];

fn by_way(case: &Case) -> &'static str {
    let on = Labelled::new(case.map, case.clearance, &case.before.list[..case.count]);
    let [s, d] = case.places;
    let meeting = lines_of(&on, s, d);
    MEETINGS[usize::from(meeting != Some(s) && meeting != Some(d))]
}

/// The route is too short as well.
fn short(case: &Case) -> bool {
    let [s, d] = case.places;
    case.before.route.len() < s.distance(d) + 1
}

/// What the check found: every reason at every kind of position at which it can be.
const FOUND: [&str; 16] = [
    "found: accepted, no hops",
    "found: accepted, with hops",
    "found: wrong start",
    "found: off the map, at position 1",
    "found: off the map, later",
    "found: closed, at position 1",
    "found: closed, later",
    "found: not a neighbour, at position 1",
    "found: not a neighbour, later",
    "found: not nearer, at position 1",
    "found: not nearer, later",
    "found: ended early, empty",
    "found: ended early, at position 1",
    "found: ended early, later",
    "found: went on, at position 1",
    "found: went on, later",
];

/// Of an accepted list it is its length that tells its kind.
fn found(reason: usize, position: usize, length: usize) -> &'static str {
    let first = match reason {
        0 => usize::from(length > 1),
        1 => 2,
        2..=5 => 2 * reason - 1 + usize::from(position > 1),
        6 => 11 + position.min(2),
        _ => 14 + usize::from(position > 1),
    };
    FOUND[first]
}

/// Everything that cases are made of.
fn names() -> Vec<&'static str> {
    let mut names = vec![
        "several markers on one crossing",
        "near or at 8,192 markers",
        "256 by many",
        "about 8,192 rocks or more",
        "plain file",
        "raw file",
        picturefiles::OLD,
        picturefiles::NEW,
        "pad bits of noise",
        "answered: not assured",
        "answered: assured",
        "answered: there",
        "answered: one hop",
        "answered: two hops",
        "answered: a drive of no hops",
        "answered: a drive of 60 hops or more",
        "answered: a drive of 300 hops or more",
        "answered: a distance of 64 or more",
        "answered: a distance of 255",
        MANY_CLOSED,
        "answered: no slot by the limit, though the list has one",
        "answered: a file's rocks over the limit, though the list is longer",
        "a list of no slots",
    ];
    names.extend([
        "answered: a drive by lines of no hops",
        "answered: 19 before 10",
    ]);
    names.extend(stones::KINDS);
    names.extend(stones::CLEARANCES.iter().map(|(name, _, _)| *name));
    names.extend(stones::HEIGHTS.iter().map(|(name, _, _)| *name));
    names.extend(SWEPT);
    names.extend(TESTS);
    names.extend(MEETINGS);
    names.extend(FOUND);
    names.extend(drawings::BEGINNINGS.iter().map(|(name, _, _)| *name));
    names.extend(drawings::CHANGES.iter().map(|(name, _, _)| *name));
    names.extend(maps::SIZES.iter().map(|(name, _, _)| *name));
    names.extend(maps::SHAPES.iter().map(|(name, _, _)| *name));
    names.extend(places::PLACES.iter().map(|(name, _, _)| *name));
    names.extend(making::LENGTHS.iter().map(|(name, _, _)| *name));
    names.extend(lists::LIST_HARMS.iter().map(|(name, _)| *name));
    names.extend(harms::SIZE_HARMS.iter().map(|(name, _)| *name));
    names.extend(harms::SHEET_HARMS.iter().map(|(name, _)| *name));
    names.extend(harms::PLACE_HARMS.iter().map(|(name, _)| *name));
    names.extend(picturefiles::PICTURE_HARMS.iter().map(|(name, _)| *name));
    names.extend(mapfiles::NOISES.iter().map(|(name, _)| *name));
    names.extend(edits::EDITS.iter().map(|(name, _)| *name));
    names.extend(edits::BYTE_EDITS.iter().map(|(name, _)| *name));
    names
}

#[cfg(test)]
mod tests {
    use super::*;
    use crate::{library, making};

    /// A tally of nothing misses everything, and a case takes away what it reached.
    #[test]
    fn what_was_not_reached_is_missing() {
        let mut tally = Tally::new();
        let ends: usize = CALLS.iter().map(|call| call.possible().len()).sum();
        let all = tally.missing().len();
        let carts = CALLS.iter().filter(|call| call.for_a_cart()).count();
        assert_eq!(all, ends + names().len() + carts);
        let case = making::make(1, 1);
        let (after, _) = library::run(&case);
        tally.count(&case, &after);
        assert!(tally.missing().len() < all);
    }

    /// A refusal that is not the call's is told.
    #[test]
    fn a_strange_refusal_is_told() {
        let mut tally = Tally::new();
        let case = making::make(1, 1);
        let (mut after, _) = library::run(&case);
        for strange in [20, 255] {
            after.refusal = strange;
            tally.count(&case, &after);
        }
        assert_eq!(tally.strange.len(), 2);
    }
}
