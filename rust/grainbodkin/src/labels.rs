//! Labels of crossings.

use std::fmt::{self, Write};

use crate::{Map, Place};

/// What a crossing is, for one cart.
///
/// Closed crossings are the smallest set that holds all rocks and every crossing with two or more
/// closed neighbours.
///
/// ```
/// use grainbodkin::{Cart, Label, Map, Markers, Place};
///
/// let cart = Cart::new(20);
/// // Rocks (1,1), (1,2), (2,1): (2,2) is shut, nothing else.
/// let mut markers = Markers::new(Map::new(8, 8)?, 3);
/// for (id, x, y) in [(1, 1, 1), (2, 1, 2), (3, 2, 1)] {
///     markers.enter(id, Place::new(x, y), 30)?;
/// }
/// let labels = markers.label(cart)?;
/// assert_eq!(labels.label(Place::new(2, 2)), Some(Label::Shut));
/// assert_eq!(labels.shut(), 1);
/// # Ok::<(), grainbodkin::Refusal>(())
/// ```
#[derive(Clone, Copy, Debug, PartialEq, Eq, Hash)]
#[repr(u8)]
pub enum Label {
    /// Not closed.
    Open = 0,
    /// At least one marker stands on it that is higher than the cart's clearance.
    Rock = 1,
    /// Closed without a rock.
    Shut = 2,
}

impl Label {
    /// The label that a label sheet's byte stands for: 0 open, 1 rock, 2 shut.
    pub const fn from_byte(byte: u8) -> Option<Label> {
        match byte {
            0 => Some(Label::Open),
            1 => Some(Label::Rock),
            2 => Some(Label::Shut),
            _ => None,
        }
    }

    /// The label's byte in a sheet.
    pub const fn byte(self) -> u8 {
        self as u8
    }

    /// Whether the crossing is closed: a rock or shut.
    pub const fn is_closed(self) -> bool {
        !matches!(self, Label::Open)
    }

    /// The sign that the labelling program prints: `.` open, `#` rock, `o` shut.
    pub const fn sign(self) -> char {
        match self {
            Label::Open => '.',
            Label::Rock => '#',
            Label::Shut => 'o',
        }
    }
}

/// The numbers that labelling hands back.
///
/// ```
/// use grainbodkin::{Cart, Labelling, Marker, MarkersRef};
///
/// // Rocks (1,1) and (4,1): nothing shut, two groups.
/// let slots = [Marker::new(1, 1, 1, 30), Marker::new(2, 4, 1, 30)];
/// let list = MarkersRef { slots: &slots, count: 2, width: 8, height: 8, cart: Cart::LOWEST };
/// assert_eq!(list.label(&mut [0; 64])?, Labelling { rocks: 2, shut: 0, groups: 2 });
/// # Ok::<(), grainbodkin::Refusal>(())
/// ```
#[derive(Clone, Copy, Debug, PartialEq, Eq, Hash)]
pub struct Labelling {
    /// Crossings with a rock.
    pub rocks: usize,
    /// Shut crossings.
    pub shut: usize,
    /// Groups: whole sets of closed crossings connected through neighbours.
    pub groups: usize,
}

/// The labels of a map for one cart, with the numbers of rocks' crossings, shut crossings and
/// groups.
///
/// It is displayed as the labelling program prints it: width, height and the three numbers, then
/// the rows from the north.
///
/// ```
/// use grainbodkin::{Cart, Label, Markers, Place};
///
/// let cart = Cart::new(20);
/// let markers = Markers::read(b"P1\n4 3\n0010\n0100\n0000\n", 10)?;
/// let labels = markers.label(cart)?;
/// assert_eq!(labels.label(Place::new(1, 1)), Some(Label::Rock));
/// assert_eq!(labels.label(Place::new(2, 1)), Some(Label::Shut));
/// assert_eq!(labels.label(Place::new(4, 1)), None);
/// assert_eq!(labels.to_string(), "4 3 2 2 1\n.o#.\n.#o.\n....");
/// # Ok::<(), grainbodkin::Refusal>(())
/// ```
#[derive(Clone, Debug, PartialEq, Eq)]
pub struct Labels {
    map: Map,
    sheet: Vec<u8>,
    numbers: Labelling,
}

impl Labels {
    pub(crate) fn new(map: Map, sheet: Vec<u8>, numbers: Labelling) -> Labels {
        Labels {
            map,
            sheet,
            numbers,
        }
    }

    /// The map that is labelled.
    pub fn map(&self) -> Map {
        self.map
    }

    /// The crossing's label; `None` off the map.
    pub fn label(&self, place: Place) -> Option<Label> {
        let byte = self.sheet.get(self.map.number(place)?)?;
        Label::from_byte(*byte)
    }

    /// The number of crossings with a rock.
    pub fn rocks(&self) -> usize {
        self.numbers.rocks
    }

    /// The number of shut crossings.
    pub fn shut(&self) -> usize {
        self.numbers.shut
    }

    /// The number of groups.
    pub fn groups(&self) -> usize {
        self.numbers.groups
    }

    /// The label sheet: one byte a crossing, by number.
    pub fn sheet(&self) -> &[u8] {
        &self.sheet
    }

    /// The rows from the north, each from the west.
    ///
    /// ```
    /// use grainbodkin::{Cart, Label, Markers};
    ///
    /// let cart = Cart::new(20);
    /// let markers = Markers::read(b"P1 3 2 010 000", 1)?;
    /// let labels = markers.label(cart)?;
    /// let rows = labels.rows().map(|row| row.map(Label::sign).collect::<String>());
    /// assert!(rows.eq([".#.", "..."]));
    /// # Ok::<(), grainbodkin::Refusal>(())
    /// ```
    pub fn rows(&self) -> impl Iterator<Item = impl Iterator<Item = Label> + '_> + '_ {
        let rows = self.map.rows(&self.sheet);
        rows.map(|row| row.iter().filter_map(|byte| Label::from_byte(*byte)))
    }
}

impl fmt::Display for Labels {
    fn fmt(&self, f: &mut fmt::Formatter<'_>) -> fmt::Result {
        let Labelling {
            rocks,
            shut,
            groups,
        } = self.numbers;
        write!(
            f,
            "{} {} {rocks} {shut} {groups}",
            self.map.width(),
            self.map.height()
        )?;
        for row in self.rows() {
            f.write_char('\n')?;
            for label in row {
                f.write_char(label.sign())?;
            }
        }
        Ok(())
    }
}
