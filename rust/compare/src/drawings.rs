//! Random drawn lists: a list that begins well, and then what a hand on a tablet does to it, each
//! by its name.
use crate::case::Case;
use crate::random::{Random, Weighted};
use independent::asking::Labelled;
use independent::drives::{drive_of, region_of};
use independent::map::{Crossing, Map};

/// A way to begin: crossings from s, to d or not.
type Beginning = Weighted<fn(&mut Random, &Case) -> Vec<Crossing>>;

pub const BEGINNINGS: [Beginning; 4] = [
    ("drawn: a drive, where there is one", 6, a_drive),
    ("drawn: straight to d, rocks or not", 3, straight),
    ("drawn: hops anywhere", 1, hops_anywhere),
    ("drawn: nothing but d", 1, |_, case| vec![case.places[1]]),
];

/// A change of the numbers drawn.
type Change = Weighted<fn(&mut Random, &Case, &mut Vec<u16>)>;

pub const CHANGES: [Change; 14] = [
    ("drawn: as it is", 6, |_, _, _| {}),
    ("drawn: empty", 1, |_, _, l| l.clear()),
    ("drawn: without its last crossing", 1, |_, _, l| {
        l.pop();
    }),
    ("drawn: cut short", 1, |r, _, l| {
        l.truncate(r.below(l.len() + 1))
    }),
    ("drawn: begun late", 1, |_, _, l| {
        l.drain(..l.len().min(1));
    }),
    ("drawn: a step of two", 1, |r, _, l| {
        if l.len() > 2 {
            l.remove(r.between(1, l.len() - 2));
        }
    }),
    ("drawn: a rest", 1, |r, _, l| again(r, l, 0)),
    ("drawn: back and forth", 1, |r, _, l| again(r, l, 1)),
    ("drawn: a number of the map", 1, |r, case, l| {
        let any = r.below(crossings(case.map));
        put(r, l, any as u16);
    }),
    // On the largest map every number of sixteen bits is a crossing, and this is the last.
    ("drawn: the first number off the map", 1, |r, case, l| {
        put(r, l, crossings(case.map).min(65_535) as u16);
    }),
    ("drawn: any sixteen bits", 1, |r, _, l| {
        let any = r.word();
        let any = r.pick(&[any, u16::MAX]);
        put(r, l, any);
    }),
    (
        "drawn: one number on, or back, without regard to edges",
        1,
        |r, _, l| {
            if l.len() > 1 {
                let at = r.between(1, l.len() - 1);
                l[at] = if r.percent(50) {
                    l[at - 1].wrapping_add(1)
                } else {
                    l[at - 1].wrapping_sub(1)
                };
            }
        },
    ),
    ("drawn: gone on with", 2, |r, case, l| {
        for _ in 0..r.between(1, 3) {
            let any = r.word();
            let last = l.last().copied().unwrap_or(0);
            l.push(r.pick(&[last, last.wrapping_add(1), case.map.width as u16, any]));
        }
    }),
    ("drawn: very long", 1, |r, _, l| {
        if r.percent(4) {
            let any = r.word();
            l.resize(1_000_000, any);
        }
    }),
];

/// The numbers drawn for a case, and the names of what they are made of.
pub fn draw(random: &mut Random, case: &Case) -> (Vec<&'static str>, Vec<u16>) {
    let (beginning, begin) = random.by_weight(&BEGINNINGS);
    let number = |c: Crossing| case.map.number(c) as u16;
    let mut drawn: Vec<u16> = begin(random, case).into_iter().map(number).collect();
    let (name, change) = random.by_weight(&CHANGES);
    change(random, case, &mut drawn);
    (vec![beginning, name], drawn)
}

fn crossings(map: Map) -> usize {
    map.width * map.height
}

/// Puts a number in place of one of the list.
fn put(random: &mut Random, drawn: &mut [u16], number: u16) {
    if !drawn.is_empty() {
        let at = random.below(drawn.len());
        drawn[at] = number;
    }
}

/// Puts a crossing in again, this many places before itself.
fn again(random: &mut Random, drawn: &mut Vec<u16>, back: usize) {
    if drawn.len() > back {
        let at = random.between(back, drawn.len() - 1);
        drawn.insert(at + 1, drawn[at - back]);
    }
}

/// The chooser's drive, or a straight line where there is none.
fn a_drive(random: &mut Random, case: &Case) -> Vec<Crossing> {
    let on = Labelled::new(case.map, case.clearance, &case.before.list[..case.count]);
    let [s, d] = case.places;
    if on.end_closed(&case.places) {
        return straight(random, case);
    }
    let region = region_of(&on, s, d);
    if region.is_empty() {
        return straight(random, case);
    }
    drive_of(&region, s, d, random.next() as u32).0
}

/// Hops nearer d, along either axis, whatever stands there.
fn straight(random: &mut Random, case: &Case) -> Vec<Crossing> {
    let [mut at, d] = case.places;
    let mut drawn = vec![at];
    while at != d {
        let nearer = |n: &Crossing| n.distance(d) < at.distance(d);
        let nearer: Vec<_> = case.map.neighbours(at).filter(nearer).collect();
        at = random.pick(&nearer);
        drawn.push(at);
    }
    drawn
}

/// Hops from s that lead anywhere.
fn hops_anywhere(random: &mut Random, case: &Case) -> Vec<Crossing> {
    let mut drawn = vec![case.places[0]];
    for _ in 0..random.below(20) {
        let beside: Vec<_> = case.map.neighbours(drawn[drawn.len() - 1]).collect();
        if !beside.is_empty() {
            drawn.push(random.pick(&beside));
        }
    }
    drawn
}
