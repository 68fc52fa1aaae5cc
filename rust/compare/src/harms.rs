//! Ways to harm sizes, sheets and places, each by its name.
use crate::case::{Call, Case};
use crate::lists::{Harm, LIST_HARMS};
use crate::random::{Random, Weighted};
use independent::map::Crossing;

/// Sides that no map has. Those past 2^32 would be a small side if they were cut to fewer bits. The
/// side may be a bad one already.
fn bad_side(random: &mut Random, side: usize) -> usize {
    let past = |n: usize| side.saturating_add(n);
    random.pick(&[
        0,
        0,
        257,
        257,
        258,
        512,
        past(256),
        past(65_536),
        past(1 << 32),
        usize::MAX,
    ])
}

pub const SIZE_HARMS: [Harm; 3] = [
    ("a width that no map has", |r, case| {
        case.map.width = bad_side(r, case.map.width);
    }),
    ("a height that no map has", |r, case| {
        case.map.height = bad_side(r, case.map.height);
    }),
    ("both sides wrong", |r, case| {
        case.map.width = bad_side(r, case.map.width);
        case.map.height = bad_side(r, case.map.height);
    }),
];

pub const SHEET_HARMS: [Harm; 6] = [
    ("a sheet one byte or number short", |r, case| {
        resize(r, case, |_, length| length.saturating_sub(1));
    }),
    ("a sheet one byte or number long", |r, case| {
        resize(r, case, |_, length| length + 1);
    }),
    ("a sheet empty", |r, case| resize(r, case, |_, _| 0)),
    ("a sheet of half or twice the size", |r, case| {
        resize(r, case, |r, length| r.pick(&[length / 2, 2 * length]));
    }),
    ("a sheet of another size", |r, case| {
        resize(r, case, |r, _| r.below(200));
    }),
    ("every sheet wrong in its own way", |r, case| {
        for which in 0..case.call.sheets() {
            resize_nth(case, which, |_| r.below(100));
        }
    }),
];

pub const PLACE_HARMS: [Harm; 4] = [
    ("a place one east of the map", |r, case| {
        let east = case.map.width;
        place(r, case).x = east;
    }),
    ("a place one north of the map", |r, case| {
        let north = case.map.height;
        place(r, case).y = north;
    }),
    ("a place far east of the map", |r, case| {
        let by = far(r);
        let place = place(r, case);
        place.x = place.x.saturating_add(by);
    }),
    ("a place far north of the map", |r, case| {
        let by = far(r);
        let place = place(r, case);
        place.y = place.y.saturating_add(by);
    }),
];

/// How far off the map: a place that would be on it if it were cut to fewer bits, or as far as can
/// be.
fn far(random: &mut Random) -> usize {
    random.pick(&[256, 512, 65_536, 1 << 32, usize::MAX])
}

/// Gives one of the sheets that the call is lent another length.
fn resize(random: &mut Random, case: &mut Case, length: fn(&mut Random, usize) -> usize) {
    let which = random.below(case.call.sheets());
    resize_nth(case, which, |before| length(random, before));
}

/// Sheets of distances hold numbers, and the others bytes.
fn resize_nth(case: &mut Case, which: usize, length: impl FnOnce(usize) -> usize) {
    let bytes = match (which, case.call) {
        (0, _) => &mut case.before.labels,
        (_, Call::Measure) => {
            let sheet = &mut case.before.sheets[which - 1];
            return sheet.resize(length(sheet.len()), 9);
        }
        _ => &mut case.before.region,
    };
    bytes.resize(length(bytes.len()), 9);
}

/// One of the places that the call is asked about.
fn place<'a>(random: &mut Random, case: &'a mut Case) -> &'a mut Crossing {
    let which = random.below(case.call.places());
    &mut case.places[which]
}

/// Harms a case in one of the ways that its call allows.
pub fn harm(random: &mut Random, case: &mut Case) {
    let sheets = if case.call.sheets() > 0 { 2 } else { 0 };
    let places = if case.call.places() > 0 { 2 } else { 0 };
    let kinds: [Weighted<&[Harm]>; 4] = [
        ("size", 1, &SIZE_HARMS),
        ("list", 2, &LIST_HARMS),
        ("sheet", sheets, &SHEET_HARMS),
        ("place", places, &PLACE_HARMS),
    ];
    let (_, harms) = random.by_weight(&kinds);
    let (name, harm) = random.pick(harms);
    harm(random, case);
    case.notes.push(name);
}
