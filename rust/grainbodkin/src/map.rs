//! The map and its crossings.

use std::fmt;

use crate::Refusal;

/// The greatest width and the greatest height of a map.
pub const SIDE: usize = 256;

/// The most bytes that a written map file has: "P4", LF, three digits, space, three digits, LF and
/// the packed rows.
pub const LONGEST_FILE: usize = file_len(SIDE, SIDE);

/// The most bytes that a written picture has: "P5", LF, three digits, space, three digits, LF,
/// "65535", LF and two bytes a crossing.
pub const LONGEST_PICTURE: usize = picture_len(SIDE, SIDE);

/// A crossing that is asked for or stands on a map: x rises to the east from 0, y rises to the
/// north from 0.
///
/// A place may be off a map; then the calls refuse it with [`Refusal::BadPlace`].
#[derive(Clone, Copy, Debug, Default, PartialEq, Eq, Hash)]
pub struct Place {
    /// How far east.
    pub x: usize,
    /// How far north.
    pub y: usize,
}

impl Place {
    /// The place (x, y).
    pub const fn new(x: usize, y: usize) -> Place {
        Place { x, y }
    }

    /// The distance to another place: east-west plus north-south offset. It saturates, for places
    /// far off any map.
    ///
    /// ```
    /// use grainbodkin::Place;
    ///
    /// assert_eq!(Place::new(0, 2).distance(Place::new(7, 4)), 9);
    /// ```
    pub const fn distance(self, other: Place) -> usize {
        self.x
            .abs_diff(other.x)
            .saturating_add(self.y.abs_diff(other.y))
    }
}

impl From<(usize, usize)> for Place {
    fn from((x, y): (usize, usize)) -> Place {
        Place { x, y }
    }
}

impl fmt::Display for Place {
    fn fmt(&self, f: &mut fmt::Formatter<'_>) -> fmt::Result {
        write!(f, "({}, {})", self.x, self.y)
    }
}

/// The size of a rectangular map: width and height, 1 to [`SIDE`] each.
///
/// A crossing's number is y × width + x. Sheets and routes go by number.
///
/// ```
/// use grainbodkin::{Map, Place};
///
/// let map = Map::new(8, 5)?;
/// assert_eq!(map.crossings(), 40);
/// assert_eq!(map.number(Place::new(2, 1)), Some(10));
/// assert_eq!(map.place(10), Some(Place::new(2, 1)));
/// assert_eq!(map.number(Place::new(2, 5)), None);
/// # Ok::<(), grainbodkin::Refusal>(())
/// ```
#[derive(Clone, Copy, Debug, PartialEq, Eq, Hash)]
pub struct Map {
    width: usize,
    height: usize,
}

impl Map {
    /// The map of this width and height.
    ///
    /// # Errors
    ///
    /// Refuses [`Refusal::BadSize`] (1), exactly when the calls do.
    pub const fn new(width: usize, height: usize) -> Result<Map, Refusal> {
        if width == 0 || width > SIDE || height == 0 || height > SIDE {
            return Err(Refusal::BadSize);
        }
        Ok(Map { width, height })
    }

    /// How many crossings a row has.
    pub const fn width(self) -> usize {
        self.width
    }

    /// How many rows there are.
    pub const fn height(self) -> usize {
        self.height
    }

    /// How many crossings there are: the bytes of a sheet, and the numbers of one of distances.
    pub const fn crossings(self) -> usize {
        self.width * self.height
    }

    /// Whether a place is on the map: x below the width and y below the height.
    pub const fn holds(self, place: Place) -> bool {
        place.x < self.width && place.y < self.height
    }

    /// The crossing's number, y × width + x; `None` off the map.
    pub const fn number(self, place: Place) -> Option<usize> {
        if self.holds(place) {
            Some(place.y * self.width + place.x)
        } else {
            None
        }
    }

    /// The crossing with a number; `None` where the map has no such crossing.
    pub const fn place(self, number: usize) -> Option<Place> {
        if number < self.crossings() {
            Some(Place::new(number % self.width, number / self.width))
        } else {
            None
        }
    }

    /// Every crossing, in the order of the numbers.
    pub fn places(self) -> impl Iterator<Item = Place> {
        (0..self.crossings()).filter_map(move |number| self.place(number))
    }

    /// The rows of a sheet from the north, each from the west: the order in which a map is printed.
    ///
    /// ```
    /// let map = grainbodkin::Map::new(2, 3)?;
    /// let sheet = [1, 2, 3, 4, 5, 6];
    /// assert!(map.rows(&sheet).eq([[5, 6], [3, 4], [1, 2]]));
    /// # Ok::<(), grainbodkin::Refusal>(())
    /// ```
    pub fn rows<T>(self, sheet: &[T]) -> impl Iterator<Item = &[T]> {
        sheet.chunks(self.width).rev()
    }

    /// How many bytes a written map file of this size has.
    ///
    /// ```
    /// let map = grainbodkin::Map::new(12, 3)?;
    /// assert_eq!(map.file_len(), "P4\n12 3\n".len() + 3 * 2);
    /// # Ok::<(), grainbodkin::Refusal>(())
    /// ```
    pub const fn file_len(self) -> usize {
        file_len(self.width, self.height)
    }

    /// How many bytes [`write_sheet`](crate::write_sheet) writes of a sheet of this size.
    ///
    /// ```
    /// use grainbodkin::Map;
    ///
    /// let map = Map::new(12, 3)?;
    /// assert_eq!(map.picture_len(), "P5\n12 3\n65535\n".len() + 3 * 12 * 2);
    /// # Ok::<(), grainbodkin::Refusal>(())
    /// ```
    pub const fn picture_len(self) -> usize {
        picture_len(self.width, self.height)
    }
}

/// "P4", LF, width, space, height, LF and the rows, eight crossings to a byte.
const fn file_len(width: usize, height: usize) -> usize {
    3 + digits(width) + 1 + digits(height) + 1 + height * width.div_ceil(8)
}

/// "P5", LF, width, space, height, LF, "65535", LF and two bytes a crossing.
const fn picture_len(width: usize, height: usize) -> usize {
    3 + digits(width) + 1 + digits(height) + 1 + 6 + 2 * height * width
}

const fn digits(side: usize) -> usize {
    if side < 10 {
        1
    } else {
        1 + digits(side / 10)
    }
}
