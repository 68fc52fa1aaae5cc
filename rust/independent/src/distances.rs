//! "Clear distances and assurance", without the hops.
use crate::asking::{Asking, Labelled};
use crate::map::{Crossing, Way, WAYS};
use crate::refusals::DONE;

/// The mark for "there is none".
pub const NONE: u16 = 65_535;

/// What asking for one crossing's distances leaves: east, south, west, north.
#[derive(Clone, Debug, PartialEq, Eq)]
pub struct Four {
    pub refusal: u8,
    pub four: [u16; 4],
    pub labels: Vec<u8>,
}

/// What asking for the whole map's distances leaves.
#[derive(Clone, Debug, PartialEq, Eq)]
pub struct Measured {
    pub refusal: u8,
    pub labels: Vec<u8>,
    pub sheets: [Vec<u16>; 4],
}

/// What asking for assurance leaves.
#[derive(Clone, Debug, PartialEq, Eq)]
pub struct Assurance {
    pub refusal: u8,
    pub assured: bool,
    pub labels: Vec<u8>,
}

/// The hops along the row or column to the nearest closed crossing that way, looked for one hop
/// after another; 0 at a closed crossing.
pub fn clear(on: &Labelled, c: Crossing, way: Way) -> u16 {
    let mut hops = 0;
    while let Some(there) = on.map.onward(c, way, usize::from(hops)) {
        if !on.open(there) {
            return hops;
        }
        hops += 1;
    }
    NONE
}

/// A crossing's distances, east, south, west, north.
pub fn four(on: &Labelled, c: Crossing) -> [u16; 4] {
    WAYS.map(|way| clear(on, c, way))
}

/// Whether a distance of home is enough for an offset: "offset at most the distance" (Req 02).
fn enough(distance: u16, offset: usize) -> bool {
    offset == 0 || distance == NONE || offset <= usize::from(distance)
}

/// Whether home, with its four distances, is assured for a place.
pub fn is_assured_by(four: [u16; 4], on: &Labelled, home: Crossing, place: Crossing) -> bool {
    let [east, south, west, north] = four;
    let east_west = if place.x > home.x { east } else { west };
    let north_south = if place.y > home.y { north } else { south };
    on.open(home)
        && on.open(place)
        && enough(east_west, place.x.abs_diff(home.x))
        && enough(north_south, place.y.abs_diff(home.y))
}

/// Whether home is assured for a place.
pub fn is_assured(on: &Labelled, home: Crossing, place: Crossing) -> bool {
    is_assured_by(four(on, home), on, home, place)
}

/// The four distances of the one place asked about.
pub fn distances(asking: Asking) -> Four {
    let refusal = asking.refusal(&[]);
    if refusal != DONE {
        return Four {
            refusal,
            four: [0; 4],
            labels: asking.labels.to_vec(),
        };
    }
    let on = asking.labelled();
    Four {
        refusal,
        four: four(&on, asking.places[0]),
        labels: on.sheet(),
    }
}

/// The four distances of every crossing, one sheet a way: "2 counts sixteen-bit numbers in a
/// distance sheet" (Req 07).
pub fn measure(asking: Asking, sheets: [&[u16]; 4]) -> Measured {
    let refusal = asking.refusal(&sheets.map(<[u16]>::len));
    if refusal != DONE {
        return Measured {
            refusal,
            labels: asking.labels.to_vec(),
            sheets: sheets.map(|s| s.to_vec()),
        };
    }
    let on = asking.labelled();
    Measured {
        refusal,
        labels: on.sheet(),
        sheets: WAYS.map(|way| on.map.sheet(|c| clear(&on, c, way))),
    }
}

/// Whether home, the first place asked about, is assured for the second.
pub fn assured(asking: Asking) -> Assurance {
    let refusal = asking.refusal(&[]);
    if refusal != DONE {
        return Assurance {
            refusal,
            assured: false,
            labels: asking.labels.to_vec(),
        };
    }
    let on = asking.labelled();
    let refusal = if on.end_closed(asking.places) {
        8
    } else {
        DONE
    };
    Assurance {
        refusal,
        assured: refusal == DONE && is_assured(&on, asking.places[0], asking.places[1]),
        labels: on.sheet(),
    }
}
