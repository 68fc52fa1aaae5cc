//! Lists and askings as the settled examples need them.
use independent::asking::{Asking, Labelled};
use independent::map::{Crossing, Crossings, Map};
use independent::markers::{Marker, TALLEST};

/// The map of the settled examples.
pub const EIGHT: Map = Map {
    width: 8,
    height: 8,
};

/// The rocks that the examples call R.
pub const R: [(u16, u16); 3] = [(3, 2), (4, 3), (5, 2)];

/// A sheet's bytes before a call: neither a label, a mark of a region nor a distance.
pub const OLD: u8 = 77;

/// The same of a sheet of distances.
pub const OLD_NUMBER: u16 = 7_777;

pub fn at(x: usize, y: usize) -> Crossing {
    Crossing::new(x, y)
}

/// "Document 01's examples mean height 65,535 and clearance 0" (Req 08).
pub fn marker(id: u16, x: u16, y: u16) -> Marker {
    Marker {
        id,
        x,
        y,
        height: TALLEST,
    }
}

pub fn markers(rocks: &[(u16, u16)]) -> Vec<Marker> {
    let with_ids = rocks.iter().zip(1..);
    with_ids.map(|(&(x, y), id)| marker(id, x, y)).collect()
}

pub fn set(places: &[(usize, usize)]) -> Crossings {
    places.iter().map(|&(x, y)| at(x, y)).collect()
}

pub fn labelled(rocks: &[(u16, u16)]) -> Labelled {
    Labelled::new(EIGHT, 0, &markers(rocks))
}

/// The shut crossings.
pub fn shut(on: &Labelled) -> Crossings {
    on.closed.difference(&on.rocks).copied().collect()
}

/// An asking on the eight by eight map with every slot in use, for a cart of no clearance.
pub fn asking<'a>(list: &'a [Marker], labels: &'a [u8], places: &'a [Crossing]) -> Asking<'a> {
    Asking {
        list,
        count: list.len(),
        map: EIGHT,
        clearance: 0,
        labels,
        places,
    }
}
