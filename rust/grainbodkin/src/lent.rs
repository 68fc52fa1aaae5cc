//! The calls over a list that the caller lends: the borrowed forms.

use crate::{
    calls, Cart, Chooser, Clear, Finding, Hops, Labelling, Lines, Map, Marker, Place, Refusal,
};

/// A lent list of markers with its count, the size of the map that it is for, and the cart that
/// asks.
///
/// Every value is allowed in every field: a call answers by the lowest refusal that applies, or
/// succeeds. Sheets, routes and outputs are lent by the caller too, so nothing is copied and
/// nothing is allocated, and at refusals 8, 9, 10, 11 and 19 the caller sees what the sheets hold.
/// [`Markers`](crate::Markers) has the same calls with memory of its own.
///
/// Slots past the count are never read. No call on this type changes a slot.
///
/// ```
/// use grainbodkin::{Cart, Label, Marker, MarkersRef, Place, Refusal};
///
/// // Rocks (1,1) and (3,1) shut (2,1).
/// let slots = [Marker::new(1, 1, 1, 30), Marker::new(2, 3, 1, 20), Marker::default()];
/// let list = MarkersRef { slots: &slots, count: 2, width: 8, height: 8, cart: Cart::LOWEST };
/// let mut labels = [0; 64];
/// let numbers = list.label(&mut labels)?;
/// assert_eq!((numbers.rocks, numbers.shut, numbers.groups), (2, 1, 1));
/// assert_eq!(Label::from_byte(labels[8 + 2]), Some(Label::Shut));
///
/// // The same list, for a cart that passes over the lower stone.
/// let higher = MarkersRef { cart: Cart::new(20), ..list };
/// assert_eq!(higher.label(&mut labels)?.shut, 0);
///
/// // A refusal changes no byte.
/// let mut short = [7; 63];
/// assert_eq!(list.label(&mut short), Err(Refusal::BadSheet));
/// assert_eq!(short, [7; 63]);
/// # Ok::<(), Refusal>(())
/// ```
#[derive(Clone, Copy, Debug)]
pub struct MarkersRef<'a> {
    /// The list lent, those in use first.
    pub slots: &'a [Marker],
    /// How many slots are in use.
    pub count: usize,
    /// The map's width.
    pub width: usize,
    /// The map's height.
    pub height: usize,
    /// The cart that asks, whose rocks these are.
    pub cart: Cart,
}

impl MarkersRef<'_> {
    /// Labels the map: one byte a crossing into `labels`, and the numbers of rocks' crossings, shut
    /// crossings and groups.
    ///
    /// # Errors
    ///
    /// Refuses 1, 2 or 3; then no byte changes.
    pub fn label(self, labels: &mut [u8]) -> Result<Labelling, Refusal> {
        let answer = calls::label(self, labels);
        let numbers = Labelling {
            rocks: answer.rocks,
            shut: answer.shut,
            groups: answer.groups,
        };
        Refusal::or(answer.refusal, numbers)
    }

    /// Labels the map sweep by sweep, and hands back the number of sweeps that changed something.
    /// [`Markers::sweeps`](crate::Markers::sweeps) tells what a sweep is. `labels` holds the labels.
    ///
    /// # Errors
    ///
    /// Refuses 1, 2 or 3; then no byte changes.
    ///
    /// ```
    /// use grainbodkin::{Cart, Marker, MarkersRef, Refusal};
    ///
    /// // Rocks (0,0), (1,0), (2,0) and (0,1): (1,1) is shut by the first sweep, (2,1) by the second.
    /// let slots = [(1, 0, 0), (2, 1, 0), (3, 2, 0), (4, 0, 1)].map(|(id, x, y)| Marker::new(id, x, y, 30));
    /// let list = MarkersRef { slots: &slots, count: 4, width: 3, height: 2, cart: Cart::LOWEST };
    /// let mut labels = [9; 6];
    /// assert_eq!(list.sweeps(&mut labels), Ok(2));
    /// assert_eq!(labels, [1, 1, 1, 1, 2, 2]);
    /// assert_eq!(list.sweeps(&mut labels[1..]), Err(Refusal::BadSheet));
    /// ```
    pub fn sweeps(self, labels: &mut [u8]) -> Result<usize, Refusal> {
        let answer = calls::sweeps(self, labels);
        Refusal::or(answer.refusal, answer.sweeps)
    }

    /// The four clear distances of a crossing. `labels` holds the labels.
    ///
    /// # Errors
    ///
    /// Refuses 1, 2, 3 or 4; then no byte changes.
    pub fn distances(self, place: Place, labels: &mut [u8]) -> Result<Clear, Refusal> {
        let answer = calls::distances(self, place, labels);
        Refusal::or(answer.refusal, Clear::from(answer.four))
    }

    /// The clear distances of the whole map, one sheet a way, of one sixteen-bit number a crossing;
    /// [`NO_DISTANCE`](crate::NO_DISTANCE) where there is none. `labels` holds the labels.
    ///
    /// # Errors
    ///
    /// Refuses 1, 2 or 3; then no byte changes.
    pub fn measure(
        self,
        labels: &mut [u8],
        east: &mut [u16],
        south: &mut [u16],
        west: &mut [u16],
        north: &mut [u16],
    ) -> Result<(), Refusal> {
        Refusal::or(calls::measure(self, labels, [east, south, west, north]), ())
    }

    /// Whether home is assured for a place. `labels` holds the labels.
    ///
    /// # Errors
    ///
    /// Refuses 1, 2, 3 or 4, and then no byte changes; or 8, and then `labels` holds the labels.
    pub fn assured(self, home: Place, place: Place, labels: &mut [u8]) -> Result<bool, Refusal> {
        let answer = calls::assured(self, home, place, labels);
        Refusal::or(answer.refusal, answer.assured)
    }

    /// Every permitted hop from a place towards home. `labels` holds the labels.
    ///
    /// # Errors
    ///
    /// Refuses 1, 2, 3 or 4, and then no byte changes; or 8 or 11, and then `labels` holds the
    /// labels.
    ///
    /// ```
    /// use grainbodkin::{Cart, Marker, MarkersRef, Place, Refusal};
    ///
    /// let slots = [Marker::new(1, 3, 2, 30), Marker::new(2, 4, 3, 30), Marker::new(3, 5, 2, 30)];
    /// let list = MarkersRef { slots: &slots, count: 3, width: 8, height: 8, cart: Cart::LOWEST };
    /// let mut labels = [9; 64];
    ///
    /// // Home (0,2) is not assured for (4,5): the hop is refused, and the sheet holds the labels
    /// // all the same.
    /// let hop = list.hop(Place::new(0, 2), Place::new(4, 5), &mut labels);
    /// assert_eq!(hop, Err(Refusal::NotAssured));
    /// assert_eq!(labels[2 * 8..3 * 8], [0, 0, 0, 1, 2, 1, 0, 0]);
    /// ```
    pub fn hop(self, home: Place, place: Place, labels: &mut [u8]) -> Result<Hops, Refusal> {
        let answer = calls::hop(self, home, place, labels);
        let first = Place::new(answer.x, answer.y);
        let second = Place::new(answer.a, answer.b);
        Refusal::or(answer.refusal, Hops::new(answer.hops, first, second))
    }

    /// The region of shortest drives from s to d: 1 in `region` for each crossing on at least one,
    /// 0 for every other. `labels` holds the labels.
    ///
    /// # Errors
    ///
    /// Refuses 1, 2, 3 or 4, and then no byte changes; or 8 or 9, and then `labels` holds the
    /// labels, and `region` is unchanged at 8 and all 0 at 9.
    pub fn region(
        self,
        s: Place,
        d: Place,
        labels: &mut [u8],
        region: &mut [u8],
    ) -> Result<(), Refusal> {
        Refusal::or(calls::region(self, s, d, labels, region), ())
    }

    /// A shortest drive from s to d, made by the chooser: hands back the filled part of the route,
    /// crossing numbers, s first and d last. The rest of the route is unchanged. `labels` and
    /// `region` hold labels and region, and the chooser moves on.
    ///
    /// # Errors
    ///
    /// Refuses 1, 2, 3 or 4, and then no byte changes; or 8, 9 or 10, and then `labels` holds the
    /// labels, `region` is unchanged at 8, all 0 at 9 and the region at 10, and route and chooser
    /// are unchanged.
    ///
    /// ```
    /// use grainbodkin::{Cart, Chooser, MarkersRef, Place};
    ///
    /// let list = MarkersRef { slots: &[], count: 0, width: 8, height: 8, cart: Cart::LOWEST };
    /// let (mut labels, mut region) = ([0; 64], [0; 64]);
    /// let mut route = [9; 6];
    /// let mut chooser = Chooser(0);
    /// let (s, d) = (Place::new(0, 0), Place::new(2, 1));
    /// let filled = list.drive(s, d, &mut labels, &mut region, &mut route, &mut chooser)?;
    /// assert_eq!(filled, [0, 1, 2, 10]);
    /// assert_eq!(route, [0, 1, 2, 10, 9, 9]);
    /// assert_eq!(chooser, Chooser(0xD1CC_F6E9));
    /// # Ok::<(), grainbodkin::Refusal>(())
    /// ```
    pub fn drive<'r>(
        self,
        s: Place,
        d: Place,
        labels: &mut [u8],
        region: &mut [u8],
        route: &'r mut [u16],
        chooser: &mut Chooser,
    ) -> Result<&'r mut [u16], Refusal> {
        let answer = calls::drive(self, s, d, labels, region, route, &mut chooser.0);
        Refusal::or(answer.refusal, &mut route[..answer.length])
    }

    /// What is found of a drawn list of crossing numbers: accepted exactly if it is a shortest
    /// drive from s to d, otherwise the first fault. `labels` holds the labels.
    ///
    /// # Errors
    ///
    /// Refuses 1, 2, 3 or 4, and then no byte changes; or 8, and then `labels` holds the labels.
    ///
    /// ```
    /// use grainbodkin::{Cart, Fault, Finding, MarkersRef, Place, Reason};
    ///
    /// let list = MarkersRef { slots: &[], count: 0, width: 8, height: 8, cart: Cart::LOWEST };
    /// let (s, d) = (Place::new(7, 0), Place::new(0, 1));
    /// // Number 8 is one more than 7, but on the other side of the map.
    /// let fault = Fault { position: 1, reason: Reason::NotANeighbour };
    /// assert_eq!(list.check(s, d, &mut [0; 64], &[7, 8]), Ok(Finding::AtFault(fault)));
    /// ```
    pub fn check(
        self,
        s: Place,
        d: Place,
        labels: &mut [u8],
        drawn: &[u16],
    ) -> Result<Finding, Refusal> {
        let answer = calls::check(self, s, d, labels, drawn);
        Refusal::or(answer.refusal, Finding::new(answer.reason, answer.position))
    }

    /// The crossing lines of s and d, or that there are none. `labels` holds the labels.
    ///
    /// # Errors
    ///
    /// Refuses 1, 2, 3 or 4, and then no byte changes; or 8, and then `labels` holds the labels.
    pub fn lines(self, s: Place, d: Place, labels: &mut [u8]) -> Result<Option<Lines>, Refusal> {
        let answer = calls::lines(self, s, d, labels);
        let lines = Lines {
            column: answer.column,
            row: answer.row,
        };
        Refusal::or(answer.refusal, answer.yes.then_some(lines))
    }

    /// The drive from s to d by way of the crossing where their crossing lines meet: the drive to
    /// there, then the one from there, with the state handed on and the meeting crossing written
    /// once. Hands back the filled part of the route, crossing numbers, s first and d last. The
    /// rest of the route is unchanged. `labels` holds the labels and `region` the region of s and
    /// d, and the chooser moves on.
    ///
    /// # Errors
    ///
    /// Refuses 1, 2, 3 or 4, and then no byte changes; or 8, 19 or 10, in this order, and then
    /// `labels` holds the labels, `region` is unchanged at 8 and 19 and the region at 10, and route
    /// and chooser are unchanged.
    ///
    /// ```
    /// use grainbodkin::{Cart, Chooser, Marker, MarkersRef, Place, Refusal};
    ///
    /// let slots = [Marker::new(1, 1, 0, 30)];
    /// let list = MarkersRef { slots: &slots, count: 1, width: 8, height: 8, cart: Cart::LOWEST };
    /// let (mut labels, mut region) = ([0; 64], [9; 64]);
    /// let mut route = [9; 6];
    /// let mut chooser = Chooser(7);
    /// let (s, d) = (Place::new(0, 0), Place::new(2, 1));
    /// let filled = list.lines_drive(s, d, &mut labels, &mut region, &mut route, &mut chooser)?;
    /// assert_eq!(filled, [0, 8, 9, 10]);
    /// assert_eq!(chooser, Chooser(0x9CCC_40FC));
    ///
    /// // From (0,0) to (2,0) the rock lies between: no row is open. The route is too short as
    /// // well.
    /// region = [9; 64];
    /// let d = Place::new(2, 0);
    /// let refused = list.lines_drive(s, d, &mut labels, &mut region, &mut [], &mut chooser);
    /// assert_eq!(refused, Err(Refusal::NoLines));
    /// assert_eq!((region, chooser), ([9; 64], Chooser(0x9CCC_40FC)));
    /// # Ok::<(), Refusal>(())
    /// ```
    pub fn lines_drive<'r>(
        self,
        s: Place,
        d: Place,
        labels: &mut [u8],
        region: &mut [u8],
        route: &'r mut [u16],
        chooser: &mut Chooser,
    ) -> Result<&'r mut [u16], Refusal> {
        let answer = calls::lines_drive(self, s, d, labels, region, route, &mut chooser.0);
        Refusal::or(answer.refusal, &mut route[..answer.length])
    }

    /// Writes the cart's rocks as a PBM map, P4, to the front of `out`, and hands back the number of
    /// bytes written. [`Map::file_len`] has that number beforehand. Bytes past the end stay.
    ///
    /// # Errors
    ///
    /// Refuses 1, 3, 16 or 17; then no byte changes. 16 looks at all markers, low ones included.
    ///
    /// ```
    /// use grainbodkin::{Cart, Marker, MarkersRef};
    ///
    /// let slots = [Marker::new(1, 0, 1, 30), Marker::new(2, 2, 0, 10)];
    /// let list = MarkersRef { slots: &slots, count: 2, width: 3, height: 2, cart: Cart::new(20) };
    /// let mut out = [b'-'; 12];
    /// assert_eq!(list.write(&mut out), Ok(9));
    /// assert_eq!(&out, b"P4\n3 2\n\x80\x00---");
    /// ```
    pub fn write(self, out: &mut [u8]) -> Result<usize, Refusal> {
        let answer = calls::write(self, out);
        Refusal::or(answer.refusal, answer.bytes)
    }
}

/// A list of markers lent to be changed, with its count, and the size of the map that it is for.
///
/// Every value is allowed in every field, as in [`MarkersRef`]. Entering and clearing set the count
/// on success.
///
/// ```
/// use grainbodkin::{Marker, MarkersMut, Place, Refusal};
///
/// let mut slots = [Marker::default(); 2];
/// let mut list = MarkersMut { slots: &mut slots, count: 0, width: 8, height: 8 };
/// assert_eq!(list.enter(7, Place::new(1, 1), 30), Ok(1));
/// assert_eq!(list.enter(5, Place::new(1, 1), 10), Ok(2));
/// assert_eq!(list.enter(6, Place::new(2, 2), 30), Err(Refusal::NoSlot));
/// assert_eq!(list.clear(5), Ok(1));
/// assert_eq!(slots, [Marker::new(7, 1, 1, 30), Marker::default()]);
/// ```
#[derive(Debug)]
pub struct MarkersMut<'a> {
    /// The list lent, those in use first.
    pub slots: &'a mut [Marker],
    /// How many slots are in use.
    pub count: usize,
    /// The map's width.
    pub width: usize,
    /// The map's height.
    pub height: usize,
}

impl<'a> MarkersMut<'a> {
    /// Reads a PBM map, P1 or P4. Its rocks become markers with ids 1, 2, 3 and on, in raster
    /// order, each of height [`TALLEST`](crate::TALLEST), in the first slots; other slots stay.
    ///
    /// # Errors
    ///
    /// Refuses 12, then 13 in the header, 1, then at the first fault met in the raster 13, 14 or
    /// 15, then 7; no slot changes then.
    ///
    /// ```
    /// use grainbodkin::{Marker, MarkersMut, TALLEST};
    ///
    /// let other = Marker::new(9, 9, 9, 9);
    /// let mut slots = [other; 3];
    /// let list = MarkersMut::read(b"P1 4 3 0010 0100 0000", &mut slots)?;
    /// assert_eq!((list.width, list.height, list.count), (4, 3, 2));
    /// assert_eq!(slots, [Marker::new(1, 2, 2, TALLEST), Marker::new(2, 1, 1, TALLEST), other]);
    /// # Ok::<(), grainbodkin::Refusal>(())
    /// ```
    pub fn read(file: &[u8], slots: &'a mut [Marker]) -> Result<MarkersMut<'a>, Refusal> {
        let answer = calls::read(file, slots);
        let list = MarkersMut {
            slots,
            count: answer.count,
            width: answer.width,
            height: answer.height,
        };
        Refusal::or(answer.refusal, list)
    }

    /// Enters a marker of this height, in centimetres: puts it at its place by id, moves the later
    /// ones up by one, and hands back the new count. Every height is allowed.
    ///
    /// # Errors
    ///
    /// Refuses 1, 3, 4, 5 or 7; then no slot changes.
    pub fn enter(&mut self, id: u16, place: Place, height: u16) -> Result<usize, Refusal> {
        let answer = calls::enter(self, id, place, height);
        self.counted(answer.refusal, answer.count)
    }

    /// Clears the marker with this id: moves the later ones down, sets the one slot so freed to
    /// zeros, and hands back the new count.
    ///
    /// # Errors
    ///
    /// Refuses 1, 3 or 6; then no slot changes.
    pub fn clear(&mut self, id: u16) -> Result<usize, Refusal> {
        let answer = calls::clear(self, id);
        self.counted(answer.refusal, answer.count)
    }

    /// The same list, lent to be asked for a cart.
    pub fn lend(&self, cart: Cart) -> MarkersRef<'_> {
        MarkersRef {
            slots: self.slots,
            count: self.count,
            width: self.width,
            height: self.height,
            cart,
        }
    }

    /// The map's size.
    ///
    /// # Errors
    ///
    /// Refuses [`Refusal::BadSize`].
    pub fn map(&self) -> Result<Map, Refusal> {
        Map::new(self.width, self.height)
    }

    fn counted(&mut self, refusal: u8, count: usize) -> Result<usize, Refusal> {
        self.count = Refusal::or(refusal, count)?;
        Ok(self.count)
    }
}
