//! One rock marker, and the cart that it stops or does not.

use crate::Place;

/// The most markers that a list may have in use.
pub const MARKERS: usize = 8192;

/// The greatest height, which markers that are read from a map file have, and the greatest
/// clearance: centimetres, as every height and clearance.
pub const TALLEST: u16 = 65_535;

/// A rock marker: an id, 1 to 65,535, a crossing, and a height in centimetres, 0 to [`TALLEST`].
///
/// It makes its crossing a rock for a [`Cart`] exactly if its height is greater than the cart's
/// clearance. Several markers may stand on one crossing; each is kept, and the highest decides. The
/// record is laid out as C's `struct bodkin_marker`.
#[derive(Clone, Copy, Debug, Default, PartialEq, Eq, Hash)]
#[repr(C)]
pub struct Marker {
    /// The id. Ids in use rise strictly along a list. A slot that clearing frees holds zeros.
    pub id: u16,
    /// How far east the marker stands.
    pub x: u16,
    /// How far north the marker stands.
    pub y: u16,
    /// How high the marker is. One of height 0 stops no cart.
    pub height: u16,
}

impl Marker {
    /// The marker with this id at (x, y), of this height.
    pub const fn new(id: u16, x: u16, y: u16, height: u16) -> Marker {
        Marker { id, x, y, height }
    }

    /// The crossing on which the marker stands.
    pub const fn place(self) -> Place {
        Place::new(self.x as usize, self.y as usize)
    }
}

/// The cart that asks, by its ground clearance in centimetres.
///
/// Every asking, and writing a map, is for one cart: its rocks are the crossings with a marker that
/// is higher than its clearance, and all that is answered follows from these. What is open for a
/// cart is open for every cart with more clearance. The default is [`Cart::LOWEST`], which the
/// programs ask for too.
///
/// ```
/// use grainbodkin::{Cart, Map, Markers, Place, Refusal, TALLEST};
///
/// // A stone of 15 cm lies between home and the place.
/// let mut markers = Markers::new(Map::new(8, 8)?, 3);
/// markers.enter(1, Place::new(1, 0), 15)?;
/// let (home, place) = (Place::new(0, 0), Place::new(3, 0));
/// assert!(!markers.assured(Cart::new(14), home, place)?);
/// assert!(markers.assured(Cart::new(15), home, place)?);
///
/// // The numbers of shut crossings and of groups may rise with the clearance: of three stones in a
/// // row the middle one is a rock for the lowest cart, and shut for one that passes over it alone.
/// let mut row = Markers::new(Map::new(8, 8)?, 3);
/// for (id, x, height) in [(1, 1, 9), (2, 2, 1), (3, 3, 9)] {
///     row.enter(id, Place::new(x, 1), height)?;
/// }
/// assert_eq!(row.label(Cart::LOWEST)?.shut(), 0);
/// assert_eq!(row.label(Cart::new(5))?.shut(), 1);
///
/// // The greatest clearance opens the whole map.
/// assert!(row.label(Cart::new(TALLEST))?.sheet().iter().all(|label| *label == 0));
/// # Ok::<(), Refusal>(())
/// ```
#[derive(Clone, Copy, Debug, Default, PartialEq, Eq, PartialOrd, Ord, Hash)]
pub struct Cart {
    /// The ground clearance. Every number is allowed.
    pub clearance: u16,
}

impl Cart {
    /// A cart of no clearance: every marker but those of height 0 stops it.
    pub const LOWEST: Cart = Cart::new(0);

    /// The cart of this clearance.
    pub const fn new(clearance: u16) -> Cart {
        Cart { clearance }
    }

    /// Whether a marker makes its crossing a rock for this cart: it is higher than the clearance.
    ///
    /// ```
    /// use grainbodkin::{Cart, Marker};
    ///
    /// let stone = Marker::new(1, 4, 4, 30);
    /// assert!(Cart::new(29).stopped_by(stone));
    /// assert!(!Cart::new(30).stopped_by(stone));
    /// ```
    pub const fn stopped_by(self, marker: Marker) -> bool {
        marker.height > self.clearance
    }
}
