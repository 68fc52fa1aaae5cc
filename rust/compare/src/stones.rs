//! Heights of stones and clearances of carts, each choice by its name, around their equality; and
//! what of them a case came to.
use crate::case::{After, Call, Case};
use crate::random::{Random, Weighted};
use independent::map::Crossings;
use independent::markers::{bad_list, Marker, MOST, TALLEST};

/// A choice of a cart's ground clearance.
type Clearance = Weighted<fn(&mut Random) -> u16>;

pub const CLEARANCES: [Clearance; 6] = [
    ("a clearance of 0", 4, |_| 0),
    ("a clearance of a few centimetres", 4, |r| {
        r.between(1, 60) as u16
    }),
    ("a clearance about a power of two", 2, |r| {
        let power = 1 << r.between(7, 15);
        (power + r.below(3) - 1) as u16
    }),
    ("any clearance", 3, |r| r.word()),
    ("a clearance of 65,534", 1, |_| TALLEST - 1),
    ("a clearance of 65,535", 1, |_| TALLEST),
];

/// A choice of a stone's height beside a clearance.
type Height = Weighted<fn(&mut Random, u16) -> u16>;

pub const HEIGHTS: [Height; 9] = [
    ("stones as high as can be", 3, |_, _| TALLEST),
    ("stones one higher than the clearance", 4, |_, clearance| {
        clearance.saturating_add(1)
    }),
    ("stones higher than the clearance", 4, higher),
    ("a few low stones among higher ones", 4, |r, clearance| {
        if r.percent(15) {
            low(r, clearance)
        } else {
            higher(r, clearance)
        }
    }),
    (
        "stones one below, equal and one above",
        4,
        |r, clearance| {
            r.pick(&[
                clearance.saturating_sub(1),
                clearance,
                clearance.saturating_add(1),
            ])
        },
    ),
    // The same in the low byte, and so equal to one that compares eight bits.
    ("stones other in the high byte alone", 1, |r, clearance| {
        clearance ^ r.pick(&[0, 0x100, 0x200, 0x8000, 0xFF00])
    }),
    ("stones of any height", 2, |r, _| r.word()),
    ("stones of 0 and of 65,535", 1, |r, _| r.pick(&[0, TALLEST])),
    ("no stone higher than the clearance", 1, low),
];

/// Higher, as far as can be.
fn higher(random: &mut Random, clearance: u16) -> u16 {
    let least = usize::from(clearance.saturating_add(1));
    random.between(least, usize::from(TALLEST)) as u16
}

fn low(random: &mut Random, clearance: u16) -> u16 {
    random.between(0, usize::from(clearance)) as u16
}

/// Chooses the cart, the heights of the markers in use, and that of a marker to be entered.
pub fn choose(random: &mut Random, case: &mut Case) {
    let (name, clearance) = random.by_weight(&CLEARANCES);
    case.clearance = clearance(random);
    if case.call.for_a_cart() {
        case.notes.push(name);
    }
    let (name, height) = random.by_weight(&HEIGHTS);
    for marker in &mut case.before.list[..case.count] {
        marker.height = height(random, case.clearance);
    }
    case.height = height(random, case.clearance);
    case.notes.push(name);
}

/// Whether stones in use are one lower than the clearance, equal to it and one higher: what stands
/// beside it in a case.
pub fn beside(case: &Case) -> [bool; 3] {
    let used = used(case);
    let by =
        |above: i32| move |m: &Marker| i32::from(m.height) == i32::from(case.clearance) + above;
    [-1, 0, 1].map(|above| used.iter().any(by(above)))
}

/// The markers in use, as far as the list goes.
fn used(case: &Case) -> &[Marker] {
    let list = &case.before.list;
    &list[..case.count.min(list.len())]
}

/// What a case can come to by its stones.
pub const KINDS: [&str; 13] = [
    "stones: a rock with a lower one on its crossing",
    "stones: on a shut crossing",
    "stones: on an open crossing, as high as the clearance",
    "stones: the whole map open over them",
    "stones: a drive over them",
    "stones: a hop onto one",
    "stones: a map written without the low ones",
    "stones: 16 by low ones alone",
    "stones: 16 by a low one and a high one",
    "stones: 3 by a low one alone",
    "stones: a height of 0 entered",
    "stones: a height of 65,535 entered",
    "stones: another height entered",
];

pub fn kinds(case: &Case, after: &After) -> Vec<&'static str> {
    let mut kinds = Vec::new();
    match (case.call, after.refusal) {
        (Call::Enter, 0) => kinds.push(match case.height {
            0 => KINDS[10],
            TALLEST => KINDS[11],
            _ => KINDS[12],
        }),
        (Call::Write, 16) => kinds.extend(shared(case)),
        (Call::Write, 0) if used(case).iter().any(|m| !m.stops(case.clearance)) => {
            kinds.push(KINDS[6]);
        }
        (call, 3) if call.for_a_cart() && low_fault(case) => kinds.push(KINDS[9]),
        (call, 0 | 8..=11 | 19) if call.sheets() > 0 => kinds.extend(labelled(case, after)),
        _ => {}
    }
    kinds
}

/// What the label sheet, the route and the hops say of the stones.
fn labelled(case: &Case, after: &After) -> Vec<&'static str> {
    let used = used(case);
    let passed = |m: &&Marker| !m.stops(case.clearance);
    let label = |m: &Marker| after.memory.labels[case.map.number(m.crossing())];
    let filled = after.answer.first().map_or(0, |(_, length)| *length);
    let reached: Vec<usize> = match (case.call, after.refusal) {
        (Call::Drive | Call::LinesDrive, 0) => after.memory.route[..filled]
            .iter()
            .map(|&number| usize::from(number))
            .collect(),
        (Call::Hop, 0) if filled > 0 => {
            vec![after.answer[2].1 * case.map.width + after.answer[1].1]
        }
        _ => Vec::new(),
    };
    let onto = |m: &Marker| reached.contains(&case.map.number(m.crossing()));
    let open = after.memory.labels.iter().all(|&label| label == 0);
    let seen = [
        used.iter().filter(passed).any(|m| label(m) == 1),
        used.iter().filter(passed).any(|m| label(m) == 2),
        used.iter()
            .any(|m| m.height == case.clearance && label(m) == 0),
        open && !used.is_empty(),
        case.call != Call::Hop && used.iter().any(onto),
        case.call == Call::Hop && used.iter().any(onto),
    ];
    let seen = KINDS.into_iter().zip(seen).filter(|(_, seen)| *seen);
    seen.map(|(name, _)| name).collect()
}

/// Which markers share a crossing where writing is refused 16: two that are passed over, or one of
/// them and one that is not; nothing where two rocks share one too.
fn shared(case: &Case) -> Option<&'static str> {
    let (high, low): (Vec<Marker>, Vec<Marker>) =
        used(case).iter().partition(|m| m.stops(case.clearance));
    let places =
        |markers: &[Marker]| -> Crossings { markers.iter().map(|m| m.crossing()).collect() };
    let (of_high, of_low) = (places(&high), places(&low));
    if of_high.len() < high.len() {
        return None;
    }
    Some(KINDS[if of_low.is_disjoint(&of_high) { 7 } else { 8 }])
}

/// Without the markers that are passed over the list would be well formed.
fn low_fault(case: &Case) -> bool {
    if case.count > MOST || case.count > case.before.list.len() {
        return false;
    }
    let high = used(case).iter().filter(|m| m.stops(case.clearance));
    let high: Vec<Marker> = high.copied().collect();
    !bad_list(case.map, &high, high.len())
}
