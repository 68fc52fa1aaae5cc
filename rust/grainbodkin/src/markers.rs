//! The owned list of markers.

use std::fmt;
use std::slice::Iter;

use crate::{Cart, Map, Marker, MarkersMut, MarkersRef, Place, Refusal, MARKERS};

/// A list of rock markers for one map, in memory of its own, with room for so many.
///
/// Its ids rise strictly and its markers are on the map, because it changes by
/// [`enter`](Markers::enter), [`clear`](Markers::clear) and [`read`](Markers::read) alone. So its
/// askings are not refused for the list, the map or the sheets (1, 2 and 3). Every asking labels
/// afresh. [`MarkersRef`] and [`MarkersMut`] have the same calls over lent memory.
///
/// ```
/// use grainbodkin::{Cart, Label, Map, Marker, Markers, Place, Refusal};
///
/// // Two markers on one crossing: each is kept, and clearing the higher one leaves the other.
/// let mut markers = Markers::new(Map::new(8, 8)?, 3);
/// let place = Place::new(4, 1);
/// markers.enter(9, place, 10)?;
/// markers.enter(2, place, 30)?;
/// assert_eq!(markers.as_slice(), [Marker::new(2, 4, 1, 30), Marker::new(9, 4, 1, 10)]);
/// assert_eq!(markers.label(Cart::new(20))?.label(place), Some(Label::Rock));
/// markers.clear(2)?;
/// assert_eq!(markers.label(Cart::new(20))?.label(place), Some(Label::Open));
/// assert_eq!(markers.label(Cart::new(9))?.label(place), Some(Label::Rock));
/// assert_eq!(markers.clear(2), Err(Refusal::IdNotInUse));
/// # Ok::<(), Refusal>(())
/// ```
#[derive(Clone)]
pub struct Markers {
    map: Map,
    slots: Vec<Marker>,
    count: usize,
}

impl Markers {
    /// An empty list for a map, with room for so many markers. Room over [`MARKERS`] could not be
    /// used and is not kept.
    pub fn new(map: Map, room: usize) -> Markers {
        let slots = vec![Marker::default(); room.min(MARKERS)];
        Markers {
            map,
            slots,
            count: 0,
        }
    }

    /// Reads a PBM map, P1 or P4, into a list with room for so many markers. Its rocks become
    /// markers with ids 1, 2, 3 and on, in raster order, the first row being the northmost, each as
    /// high as can be: [`TALLEST`](crate::TALLEST).
    ///
    /// # Errors
    ///
    /// Refuses 12, then 13 in the header, 1, then at the first fault met in the raster 13, 14 or
    /// 15, then 7.
    ///
    /// ```
    /// use grainbodkin::{Marker, Markers, Refusal, TALLEST};
    ///
    /// let markers = Markers::read(b"P4\n# two rocks\n3 2\n\x80\x20", 10)?;
    /// assert_eq!((markers.map().width(), markers.map().height()), (3, 2));
    /// let two = [Marker::new(1, 0, 1, TALLEST), Marker::new(2, 2, 0, TALLEST)];
    /// assert_eq!(markers.as_slice(), two);
    ///
    /// assert_eq!(Markers::read(b"P5 3 2 ", 10).unwrap_err(), Refusal::BadLetters);
    /// # Ok::<(), Refusal>(())
    /// ```
    pub fn read(file: &[u8], room: usize) -> Result<Markers, Refusal> {
        let mut slots = vec![Marker::default(); room.min(MARKERS)];
        let list = MarkersMut::read(file, &mut slots)?;
        let (map, count) = (list.map()?, list.count);
        Ok(Markers { map, slots, count })
    }

    /// Enters a marker of this height, in centimetres: puts it at its place by id, moves the later
    /// ones up by one, and hands back the new count. Every height is allowed.
    ///
    /// # Errors
    ///
    /// Refuses 4, 5 or 7; then the list is unchanged.
    pub fn enter(&mut self, id: u16, place: Place, height: u16) -> Result<usize, Refusal> {
        self.count = self.lend_mut().enter(id, place, height)?;
        Ok(self.count)
    }

    /// Clears the marker with this id, moves the later ones down, and hands back the new count. The
    /// room is used again.
    ///
    /// # Errors
    ///
    /// Refuses 6; then the list is unchanged.
    pub fn clear(&mut self, id: u16) -> Result<usize, Refusal> {
        self.count = self.lend_mut().clear(id)?;
        Ok(self.count)
    }

    /// The map that the list is for.
    pub fn map(&self) -> Map {
        self.map
    }

    /// How many markers are in use.
    pub fn len(&self) -> usize {
        self.count
    }

    /// Whether no marker is in use.
    pub fn is_empty(&self) -> bool {
        self.count == 0
    }

    /// How many markers there is room for, those in use included.
    pub fn room(&self) -> usize {
        self.slots.len()
    }

    /// The markers in use, in the order of their ids.
    pub fn as_slice(&self) -> &[Marker] {
        &self.slots[..self.count]
    }

    /// The markers in use, in the order of their ids.
    pub fn iter(&self) -> Iter<'_, Marker> {
        self.as_slice().iter()
    }

    /// The marker with an id; `None` where the id is not in use.
    pub fn get(&self, id: u16) -> Option<Marker> {
        let slot = self
            .as_slice()
            .binary_search_by_key(&id, |marker| marker.id);
        slot.ok().map(|slot| self.as_slice()[slot])
    }

    /// The list, lent to be asked for a cart, with sheets of the caller's.
    pub fn lend(&self, cart: Cart) -> MarkersRef<'_> {
        MarkersRef {
            slots: &self.slots,
            count: self.count,
            width: self.map.width(),
            height: self.map.height(),
            cart,
        }
    }

    /// Not public: slots changed from outside might no longer be a list for the map.
    fn lend_mut(&mut self) -> MarkersMut<'_> {
        MarkersMut {
            slots: &mut self.slots,
            count: self.count,
            width: self.map.width(),
            height: self.map.height(),
        }
    }
}

/// Two lists are equal when their maps and the markers in use are, whatever the room.
impl PartialEq for Markers {
    fn eq(&self, other: &Markers) -> bool {
        self.map == other.map && self.as_slice() == other.as_slice()
    }
}

impl Eq for Markers {}

impl fmt::Debug for Markers {
    fn fmt(&self, f: &mut fmt::Formatter<'_>) -> fmt::Result {
        f.debug_struct("Markers")
            .field("map", &self.map)
            .field("room", &self.room())
            .field("markers", &self.as_slice())
            .finish()
    }
}

impl<'a> IntoIterator for &'a Markers {
    type Item = &'a Marker;
    type IntoIter = Iter<'a, Marker>;

    fn into_iter(self) -> Iter<'a, Marker> {
        self.iter()
    }
}
