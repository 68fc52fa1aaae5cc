//! The region of shortest drives, the chooser and the drive.

use crate::{Map, Place};

/// The state from which drives are drawn: 32 bits.
///
/// At each hop the state z becomes 1664525 × z + 1013904223, modulo 4,294,967,296. With two
/// candidates its top bit takes the east-west one (0) or the north-south one (1); with one the draw
/// is thrown away. So a drive moves the chooser on once for every hop, whatever rocks it passes; a
/// drive of no hops leaves it, and so does a refusal.
#[derive(Clone, Copy, Debug, Default, PartialEq, Eq, Hash)]
pub struct Chooser(
    /// The state.
    pub u32,
);

/// The region: the set of crossings on at least one shortest drive.
///
/// ```
/// use grainbodkin::{Cart, Map, Markers, Place};
///
/// let cart = Cart::new(20);
/// let mut markers = Markers::new(Map::new(8, 8)?, 3);
/// for (id, x, y) in [(1, 3, 2), (2, 4, 3), (3, 5, 2)] {
///     markers.enter(id, Place::new(x, y), 30)?;
/// }
/// let region = markers.region(cart, Place::new(0, 0), Place::new(7, 3))?;
/// assert_eq!(region.len(), 20);
/// assert!(region.contains(Place::new(6, 2)));
/// assert!(!region.contains(Place::new(2, 3)));
/// # Ok::<(), grainbodkin::Refusal>(())
/// ```
#[derive(Clone, Debug, PartialEq, Eq)]
pub struct Region {
    map: Map,
    sheet: Vec<u8>,
}

impl Region {
    pub(crate) fn new(map: Map, sheet: Vec<u8>) -> Region {
        Region { map, sheet }
    }

    /// The map in which the region lies.
    pub fn map(&self) -> Map {
        self.map
    }

    /// Whether a crossing is in the region; none off the map is.
    pub fn contains(&self, place: Place) -> bool {
        let number = self.map.number(place);
        number.is_some_and(|number| self.sheet.get(number) == Some(&1))
    }

    /// Every crossing in the region, in the order of the numbers.
    pub fn iter(&self) -> impl Iterator<Item = Place> + '_ {
        self.map.places().filter(|place| self.contains(*place))
    }

    /// How many crossings are in the region: at least one, for its ends are.
    #[allow(clippy::len_without_is_empty)]
    pub fn len(&self) -> usize {
        self.sheet.iter().filter(|byte| **byte == 1).count()
    }

    /// The region sheet: one byte a crossing, by number, 1 in, 0 out.
    pub fn sheet(&self) -> &[u8] {
        &self.sheet
    }
}

/// A shortest drive: open crossings, each a neighbour of the one before, from s to d, with as many
/// hops as their distance.
///
/// ```
/// use grainbodkin::{Cart, Chooser, Map, Markers, Place};
///
/// let cart = Cart::new(20);
/// let markers = Markers::new(Map::new(8, 8)?, 0);
/// let mut chooser = Chooser(0);
/// let drive = markers.drive(cart, Place::new(0, 0), Place::new(2, 1), &mut chooser)?;
/// assert_eq!(drive.numbers(), [0, 1, 2, 10]);
/// assert_eq!(drive.hops(), 3);
/// assert_eq!(drive.places().last(), Some(Place::new(2, 1)));
/// assert_eq!(chooser.0, 0xD1CC_F6E9);
/// # Ok::<(), grainbodkin::Refusal>(())
/// ```
#[derive(Clone, Debug, PartialEq, Eq)]
pub struct Drive {
    map: Map,
    route: Vec<u16>,
}

impl Drive {
    pub(crate) fn new(map: Map, route: Vec<u16>) -> Drive {
        Drive { map, route }
    }

    /// The crossings' numbers, s first and d last.
    pub fn numbers(&self) -> &[u16] {
        &self.route
    }

    /// The crossings, s first and d last.
    pub fn places(&self) -> impl Iterator<Item = Place> + '_ {
        self.route
            .iter()
            .filter_map(|number| self.map.place(usize::from(*number)))
    }

    /// How many hops the drive has: 0 from a crossing to itself.
    pub fn hops(&self) -> usize {
        self.route.len().saturating_sub(1)
    }
}
