//! Hops homeward.

use crate::Place;

/// Every permitted hop homeward: to an open neighbour one hop nearer home.
///
/// Whichever of them a cart takes, again and again, it is home after exactly the east-west plus
/// north-south distance, as long as the markers stay the same on its way and it is the cart that
/// asks.
///
/// ```
/// use grainbodkin::{Cart, Hops, Map, Markers, Place};
///
/// let cart = Cart::new(20);
/// let markers = Markers::new(Map::new(8, 8)?, 0);
/// let home = Place::new(0, 2);
/// let two = Hops::Two { east_west: Place::new(1, 5), north_south: Place::new(2, 4) };
/// assert_eq!(markers.hop(cart, home, Place::new(2, 5))?, two);
/// assert_eq!(markers.hop(cart, home, Place::new(2, 2))?, Hops::One(Place::new(1, 2)));
/// assert_eq!(markers.hop(cart, home, home)?, Hops::There);
/// # Ok::<(), grainbodkin::Refusal>(())
/// ```
#[derive(Clone, Copy, Debug, PartialEq, Eq, Hash)]
pub enum Hops {
    /// The place is home: there is no hop.
    There,
    /// The one permitted hop.
    One(Place),
    /// Both permitted hops.
    Two {
        /// The east-west hop.
        east_west: Place,
        /// The north-south hop.
        north_south: Place,
    },
}

impl Hops {
    /// From how many hops there are and where they lead, the east-west one first.
    pub(crate) fn new(hops: u8, first: Place, second: Place) -> Hops {
        match hops {
            0 => Hops::There,
            1 => Hops::One(first),
            _ => Hops::Two {
                east_west: first,
                north_south: second,
            },
        }
    }

    /// The first permitted hop, the east-west one where there are two; `None` at home.
    pub const fn first(self) -> Option<Place> {
        match self {
            Hops::There => None,
            Hops::One(place) => Some(place),
            Hops::Two { east_west, .. } => Some(east_west),
        }
    }

    /// Every permitted hop, the east-west one first.
    pub fn iter(self) -> impl Iterator<Item = Place> {
        let second = match self {
            Hops::Two { north_south, .. } => Some(north_south),
            _ => None,
        };
        self.first().into_iter().chain(second)
    }
}
