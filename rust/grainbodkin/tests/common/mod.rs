//! What the tests share: lists of markers, and lent memory of which every byte is known.
#![allow(dead_code)] // each test file uses a part of this

use grainbodkin::{Cart, Chooser, Map, Marker, Markers, MarkersRef, Place, Refusal, TALLEST};

/// "Document 01's examples mean height 65,535 and clearance 0."
pub const LOWEST: Cart = Cart::LOWEST;

/// Rocks (3,2), (4,3), (5,2), called R.
pub const R: [(u16, u16); 3] = [(3, 2), (4, 3), (5, 2)];

/// The label sheet of R on a map 8 by 8, rows from the south.
pub const R_LABELS: [u8; 64] = [
    0, 0, 0, 0, 0, 0, 0, 0, //
    0, 0, 0, 0, 0, 0, 0, 0, //
    0, 0, 0, 1, 2, 1, 0, 0, //
    0, 0, 0, 2, 1, 2, 0, 0, //
    0, 0, 0, 0, 0, 0, 0, 0, //
    0, 0, 0, 0, 0, 0, 0, 0, //
    0, 0, 0, 0, 0, 0, 0, 0, //
    0, 0, 0, 0, 0, 0, 0, 0, //
];

/// A marker as high as can be.
pub const fn rock(id: u16, x: u16, y: u16) -> Marker {
    Marker::new(id, x, y, TALLEST)
}

pub fn at(x: usize, y: usize) -> Place {
    Place::new(x, y)
}

/// Markers with ids 1, 2, 3 and on, on these crossings.
pub fn slots(rocks: &[(u16, u16)]) -> Vec<Marker> {
    let ids = 1..;
    ids.zip(rocks)
        .map(|(id, (x, y))| rock(id, *x, *y))
        .collect()
}

/// A list lent for a map 8 by 8, all of its slots in use, for the lowest cart.
pub fn eight(slots: &[Marker]) -> MarkersRef<'_> {
    MarkersRef {
        slots,
        count: slots.len(),
        width: 8,
        height: 8,
        cart: LOWEST,
    }
}

/// An owned list for a map 8 by 8, with room for two more.
pub fn owned(rocks: &[(u16, u16)]) -> Markers {
    let mut markers = Markers::new(Map::new(8, 8).unwrap(), rocks.len() + 2);
    for marker in slots(rocks) {
        markers.enter(marker.id, marker.place(), TALLEST).unwrap();
    }
    markers
}

/// Everything that an asking may be lent besides the list. Its bytes and numbers are none that a
/// call would write.
#[derive(Clone, Debug, PartialEq)]
pub struct Lent {
    pub labels: Vec<u8>,
    pub region: Vec<u8>,
    pub east: Vec<u16>,
    pub south: Vec<u16>,
    pub west: Vec<u16>,
    pub north: Vec<u16>,
    pub route: Vec<u16>,
    pub chooser: Chooser,
}

impl Lent {
    /// Sheets of so many bytes, of distances so many numbers, and a route of so many numbers.
    pub fn new(length: usize, numbers: usize) -> Lent {
        let sheet = |byte: u8| vec![byte; length];
        let ways = |number: u16| vec![number; length];
        Lent {
            labels: sheet(101),
            region: sheet(102),
            east: ways(10_003),
            south: ways(10_004),
            west: ways(10_005),
            north: ways(10_006),
            route: vec![60_000; numbers],
            chooser: Chooser(77),
        }
    }
}

/// An asking with home or s, and place or d.
pub type Asking = fn(MarkersRef<'_>, Place, Place, &mut Lent) -> Result<(), Refusal>;

/// The askings, by name, but for the check of a drawn list.
pub const ASKINGS: [(&str, Asking); 10] = [
    ("label", |list, _, _, m| list.label(&mut m.labels).map(drop)),
    ("sweeps", |list, _, _, m| {
        list.sweeps(&mut m.labels).map(drop)
    }),
    ("distances", |list, _, place, m| {
        list.distances(place, &mut m.labels).map(drop)
    }),
    ("measure", |list, _, _, m| {
        let (labels, east, south) = (&mut m.labels, &mut m.east, &mut m.south);
        list.measure(labels, east, south, &mut m.west, &mut m.north)
    }),
    ("assured", |list, home, place, m| {
        list.assured(home, place, &mut m.labels).map(drop)
    }),
    ("hop", |list, home, place, m| {
        list.hop(home, place, &mut m.labels).map(drop)
    }),
    ("region", |list, s, d, m| {
        list.region(s, d, &mut m.labels, &mut m.region)
    }),
    ("drive", |list, s, d, m| {
        let (labels, region) = (&mut m.labels, &mut m.region);
        let filled = list.drive(s, d, labels, region, &mut m.route, &mut m.chooser);
        filled.map(drop)
    }),
    ("lines", |list, s, d, m| {
        list.lines(s, d, &mut m.labels).map(drop)
    }),
    ("lines_drive", |list, s, d, m| {
        let (labels, region) = (&mut m.labels, &mut m.region);
        let filled = list.lines_drive(s, d, labels, region, &mut m.route, &mut m.chooser);
        filled.map(drop)
    }),
];

/// The asking with this name.
pub fn asking(name: &str) -> Asking {
    let named = ASKINGS.iter().find(|(other, _)| *other == name);
    named.unwrap().1
}

/// Sizes of which width or height is 0 or over 256.
pub const BAD_SIZES: [(usize, usize); 6] = [
    (0, 8),
    (8, 0),
    (257, 8),
    (8, 257),
    (usize::MAX, 1),
    (1 << 63, 2),
];

/// Lists that are refused 3 on a map 8 by 8: slots and count.
pub fn bad_lists() -> Vec<(Vec<Marker>, usize)> {
    let two = |a: Marker, b: Marker| (vec![a, b], 2);
    let first = rock(4, 1, 1);
    let many: Vec<Marker> = (1..=8193).map(|id| rock(id, 0, 0)).collect();
    vec![
        (slots(&R), 4),
        (slots(&R), usize::MAX),
        (many, 8193),
        two(rock(0, 1, 1), first),
        two(first, rock(4, 2, 2)),
        two(first, rock(3, 2, 2)),
        two(first, rock(5, 8, 2)),
        two(first, rock(5, 2, 8)),
    ]
}
