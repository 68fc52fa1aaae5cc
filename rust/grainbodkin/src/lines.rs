//! Crossing lines.

use crate::Place;

/// The crossing lines of two places: the westmost column and the southmost row between them, ends
/// included, that are open throughout the rectangle which the two places span.
///
/// Where two places have them, there is a shortest drive. Either test may say yes where the other
/// says no:
///
/// ```
/// use grainbodkin::{Cart, Lines, Map, Markers, Place};
///
/// let cart = Cart::new(20);
/// let (home, place) = (Place::new(0, 0), Place::new(2, 1));
/// let mut markers = Markers::new(Map::new(8, 8)?, 2);
/// markers.enter(1, Place::new(1, 0), 30)?;
/// assert_eq!(markers.lines(cart, home, place)?, Some(Lines { column: 0, row: 1 }));
/// assert!(!markers.assured(cart, home, place)?);
///
/// let mut markers = Markers::new(Map::new(8, 8)?, 2);
/// markers.enter(1, Place::new(0, 1), 30)?;
/// markers.enter(2, Place::new(2, 0), 30)?;
/// assert_eq!(markers.lines(cart, home, place)?, None);
/// assert!(markers.assured(cart, home, place)?);
/// # Ok::<(), grainbodkin::Refusal>(())
/// ```
#[derive(Clone, Copy, Debug, PartialEq, Eq, Hash)]
pub struct Lines {
    /// The westmost column.
    pub column: usize,
    /// The southmost row.
    pub row: usize,
}

impl Lines {
    /// The crossing where the two meet.
    pub const fn meeting(self) -> Place {
        Place::new(self.column, self.row)
    }
}
