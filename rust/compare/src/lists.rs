//! Random marker lists: well formed ones for given rocks, and the ways to harm them.
use crate::case::{Call, Case};
use crate::random::Random;
use independent::map::{Crossing, SIDE};
use independent::markers::{Marker, MOST, TALLEST};

/// A way to harm a case: its name and what it does.
pub type Harm = (&'static str, fn(&mut Random, &mut Case));

/// Lends the case a well-formed list with markers on these crossings, with slots past the count
/// full of noise.
pub fn lend(random: &mut Random, case: &mut Case, rocks: &[Crossing]) {
    let mut places = rocks.to_vec();
    if random.percent(25) && !places.is_empty() {
        for _ in 0..random.between(1, 4) {
            places.push(random.pick(&places));
        }
        case.notes.push("several markers on one crossing");
    }
    let often = if case.call == Call::Enter { 5 } else { 1 };
    if random.percent(often) && !places.is_empty() {
        let room = random.between(MOST - 1, MOST);
        while places.len() < room {
            places.push(random.pick(&places));
        }
        case.notes.push("near or at 8,192 markers");
    }
    places.truncate(MOST);
    for i in (1..places.len()).rev() {
        places.swap(i, random.below(i + 1));
    }
    let ids = ids(random, places.len());
    let used = places.iter().zip(ids).map(|(c, id)| marker(id, c.x, c.y));
    case.before.list = used.collect();
    case.count = places.len();
    let spare = random.pick(&[0, 0, 1, 1, 1, 2, 3, 8]);
    case.before.list.extend(noise(random, spare));
}

/// Noise for slots that no call reads. Part of it looks like markers in use.
pub fn noise(random: &mut Random, slots: usize) -> Vec<Marker> {
    let any = |r: &mut Random| match r.below(4) {
        0 => Marker::default(),
        1 => marker(r.word(), r.below(SIDE), r.below(SIDE)),
        _ => Marker {
            height: r.word(),
            ..marker(r.word(), r.word().into(), r.word().into())
        },
    };
    (0..slots).map(|_| any(random)).collect()
}

/// Rising ids: from 1 on, up to the last one there is, or with random gaps.
fn ids(random: &mut Random, count: usize) -> Vec<u16> {
    let spare = 65_535 - count;
    match random.below(4) {
        0 => (1..=65_535).take(count).collect(),
        1 => (0..count).map(|i| (spare + 1 + i) as u16).collect(),
        _ => {
            let most = random.pick(&[3, 9, 200]).min(spare / count.max(1));
            let mut last = 0;
            let mut next = || {
                last += 1 + random.below(most + 1) as u16;
                last
            };
            (0..count).map(|_| next()).collect()
        }
    }
}

/// A marker as high as can be.
fn marker(id: u16, x: usize, y: usize) -> Marker {
    Marker {
        id,
        x: x as u16,
        y: y as u16,
        height: TALLEST,
    }
}

/// How far off the map: a marker that would be on it if it were cut to eight bits, or as far as can
/// be.
const FAR: [u16; 5] = [0x100, 0x200, 0x4000, 0x8000, u16::MAX];

/// The ways to harm a list: each makes it one that refusal 3 is for.
pub const LIST_HARMS: [Harm; 13] = [
    ("count one over the list", |_, case| {
        case.count = case.before.list.len() + 1;
    }),
    ("count over 8,192, not over the list", |r, case| {
        long(r, case);
        case.count = r.between(MOST + 1, case.before.list.len());
    }),
    ("count over 8,192 and over the list", |r, case| {
        case.count = case.before.list.len().max(MOST) + r.between(1, 9);
    }),
    ("count huge", |r, case| {
        let top = usize::MAX - r.below(3);
        case.count = r.pick(&[
            top,
            1 << 63,
            1 << 32,
            1 << 16,
            case.count.max(1).saturating_add(1 << 32),
        ]);
    }),
    ("first id 0", |_, case| {
        at_least(case, 1);
        case.before.list[0].id = 0;
    }),
    ("an id 0", |r, case| in_use(r, case).id = 0),
    ("two ids equal", |r, case| {
        at_least(case, 2);
        let at = r.between(1, case.count - 1);
        case.before.list[at].id = case.before.list[at - 1].id;
    }),
    ("two ids falling", |r, case| {
        at_least(case, 2);
        let at = r.between(1, case.count - 1);
        let (low, high) = (case.before.list[at - 1].id, case.before.list[at].id);
        case.before.list[at - 1].id = high;
        case.before.list[at].id = low;
    }),
    ("a marker one east of the map", |r, case| {
        let east = case.map.width.min(0xFFFF) as u16;
        in_use(r, case).x = east;
    }),
    ("a marker one north of the map", |r, case| {
        let north = case.map.height.min(0xFFFF) as u16;
        in_use(r, case).y = north;
    }),
    ("a marker far east of the map", |r, case| {
        let far = r.pick(&FAR);
        let marker = in_use(r, case);
        marker.x = marker.x.saturating_add(far);
    }),
    ("a marker far north of the map", |r, case| {
        let far = r.pick(&FAR);
        let marker = in_use(r, case);
        marker.y = marker.y.saturating_add(far);
    }),
    ("the last marker off the map", |_, case| {
        at_least(case, 1);
        case.before.list[case.count - 1].y = u16::MAX;
    }),
];

/// Any one marker in use.
fn in_use<'a>(random: &mut Random, case: &'a mut Case) -> &'a mut Marker {
    at_least(case, 1);
    let at = random.below(case.count);
    &mut case.before.list[at]
}

/// Sees to it that so many slots hold markers in use, as far as ids go.
fn at_least(case: &mut Case, count: usize) {
    case.count = case.count.min(case.before.list.len());
    while case.count < count {
        let last = case.count.checked_sub(1).map(|at| case.before.list[at].id);
        let id = last.unwrap_or(0).saturating_add(1);
        case.before.list.insert(case.count, marker(id, 0, 0));
        case.count += 1;
    }
}

/// Makes the list longer than may be in use, with rising ids on one crossing, so that only its
/// count is at fault.
fn long(random: &mut Random, case: &mut Case) {
    let slots = MOST + random.between(1, 5);
    let place = [case.map.width, case.map.height].map(|side| side.min(SIDE) / 2);
    let slot = |id| marker(id as u16, place[0], place[1]);
    case.before.list = (1..=slots).map(slot).collect();
}
