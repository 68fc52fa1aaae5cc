//! Clear distances.

use crate::{Map, Place};

/// The number that stands in a distance sheet where there is no distance.
pub const NO_DISTANCE: u16 = 65_535;

/// A crossing's four clear distances: the hops along its row or column to the nearest closed
/// crossing that way, or `None` if there is none. At a closed crossing all four are 0.
///
/// ```
/// use grainbodkin::Clear;
///
/// let clear = Clear::from([3, 255, 65_535, 65_535]);
/// assert_eq!(clear.east, Some(3));
/// assert_eq!(clear.south, Some(255));
/// assert_eq!(clear.west, None);
/// assert_eq!(<[u16; 4]>::from(clear), [3, 255, 65_535, 65_535]);
/// ```
#[derive(Clone, Copy, Debug, PartialEq, Eq, Hash)]
pub struct Clear {
    /// To the east.
    pub east: Option<u16>,
    /// To the south.
    pub south: Option<u16>,
    /// To the west.
    pub west: Option<u16>,
    /// To the north.
    pub north: Option<u16>,
}

fn distance(number: u16) -> Option<u16> {
    (number != NO_DISTANCE).then_some(number)
}

/// From the four numbers east, south, west, north, in that order, with [`NO_DISTANCE`] for none.
impl From<[u16; 4]> for Clear {
    fn from([east, south, west, north]: [u16; 4]) -> Clear {
        Clear {
            east: distance(east),
            south: distance(south),
            west: distance(west),
            north: distance(north),
        }
    }
}

/// The four numbers east, south, west, north, in that order, with [`NO_DISTANCE`] for none.
impl From<Clear> for [u16; 4] {
    fn from(clear: Clear) -> [u16; 4] {
        let ways = [clear.east, clear.south, clear.west, clear.north];
        ways.map(|way| way.unwrap_or(NO_DISTANCE))
    }
}

/// The clear distances of a whole map: four sheets of one sixteen-bit number a crossing.
///
/// ```
/// use grainbodkin::{Cart, Clear, Map, Markers, Place, NO_DISTANCE};
///
/// let cart = Cart::new(20);
/// // Without rocks each distance is none.
/// let mut markers = Markers::new(Map::new(8, 8)?, 4);
/// let none = [NO_DISTANCE; 64];
/// let distances = markers.measure(cart)?;
/// assert_eq!([distances.east(), distances.south(), distances.west(), distances.north()], [none; 4]);
///
/// markers.enter(1, Place::new(3, 2), 30)?;
/// let distances = markers.measure(cart)?;
/// assert_eq!(distances.at(Place::new(0, 2)), Some(Clear { east: Some(3), south: None, west: None, north: None }));
/// # Ok::<(), grainbodkin::Refusal>(())
/// ```
#[derive(Clone, Debug, PartialEq, Eq)]
pub struct Distances {
    map: Map,
    sheets: [Vec<u16>; 4],
}

impl Distances {
    pub(crate) fn new(map: Map, sheets: [Vec<u16>; 4]) -> Distances {
        Distances { map, sheets }
    }

    /// The map that is measured.
    pub fn map(&self) -> Map {
        self.map
    }

    /// The crossing's four distances; `None` off the map.
    pub fn at(&self, place: Place) -> Option<Clear> {
        let number = self.map.number(place)?;
        let [east, south, west, north] = &self.sheets;
        let four = [
            east.get(number)?,
            south.get(number)?,
            west.get(number)?,
            north.get(number)?,
        ];
        Some(Clear::from(four.map(|number| *number)))
    }

    /// The sheet of distances to the east.
    pub fn east(&self) -> &[u16] {
        &self.sheets[0]
    }

    /// The sheet of distances to the south.
    pub fn south(&self) -> &[u16] {
        &self.sheets[1]
    }

    /// The sheet of distances to the west.
    pub fn west(&self) -> &[u16] {
        &self.sheets[2]
    }

    /// The sheet of distances to the north.
    pub fn north(&self) -> &[u16] {
        &self.sheets[3]
    }
}
