//! Refusals and their numbers.

use std::error::Error;
use std::fmt;

use crate::{MARKERS, SIDE};

/// Why a call is refused: nineteen cases, each with its number.
///
/// A call gives the lowest number that applies, but 19 before 10. Reading a file goes 12, 13 in the
/// header, 1, then the raster: at the first fault met 13, 14 or 15, then 7. Reading a picture goes
/// 12, 13, 1, 18, 2, 14, 15.
///
/// Refusals 1 to 7 and 12 to 18 change nothing that is lent. At 8, 9, 10, 11 and 19 a lent label
/// sheet holds the labels; a lent region sheet is unchanged at 8 and 19, all 0 at 9 and the region
/// at 10; a route and a chooser are unchanged.
///
/// ```
/// use grainbodkin::{Map, Refusal};
///
/// let refusal = Map::new(8, 257).unwrap_err();
/// assert_eq!(refusal, Refusal::BadSize);
/// assert_eq!(refusal.number(), 1);
/// assert_eq!(refusal.to_string(), "refused 1: width or height is 0 or over 256");
/// ```
#[derive(Clone, Copy, Debug, PartialEq, Eq, PartialOrd, Ord, Hash)]
#[repr(u8)]
pub enum Refusal {
    /// 1: width or height is 0 or over [`SIDE`].
    BadSize = 1,
    /// 2: a lent sheet is not width × height bytes, or, of distances, sixteen-bit numbers.
    BadSheet = 2,
    /// 3: the count is over [`MARKERS`] or over the list lent, an id is 0, ids do not rise, or a
    /// marker is off the map.
    BadList = 3,
    /// 4: a place or new marker is off the map, or a new id is 0.
    BadPlace = 4,
    /// 5: entering an id in use.
    IdInUse = 5,
    /// 6: clearing an id not in use.
    IdNotInUse = 6,
    /// 7: no slot: the count, or a file's rocks, would pass the list lent or [`MARKERS`].
    NoSlot = 7,
    /// 8: assurance, hop, region, drive, check or crossing lines asked, and an end (home, place, s
    /// or d) is closed.
    EndClosed = 8,
    /// 9: region or drive asked, both ends are open, and there is no shortest drive.
    NoDrive = 9,
    /// 10: the route buffer is shorter than distance + 1.
    ShortRoute = 10,
    /// 11: hop asked, and home is not assured.
    NotAssured = 11,
    /// 12: a file's first two bytes are neither P1 nor P4, of a picture not P5, or there are fewer
    /// than two.
    BadLetters = 12,
    /// 13: the header is against the rules or cut short, or a P1 raster has a byte before the last
    /// digit that is neither digit 0, 1 nor blank.
    BadHeader = 13,
    /// 14: the raster ends early.
    ShortRaster = 14,
    /// 15: bytes after the raster (in P1: other than blanks).
    LongRaster = 15,
    /// 16: two markers on one crossing, when writing: all are looked at, low ones included.
    SharedCrossing = 16,
    /// 17: the output is too short for the whole file.
    ShortOutput = 17,
    /// 18: a picture's largest value is neither 255 nor 65535.
    BadLargest = 18,
    /// 19: a drive by way of crossing lines asked, and there are none.
    NoLines = 19,
}

impl Refusal {
    /// Every refusal, in the order of the numbers.
    pub const ALL: [Refusal; 19] = [
        Refusal::BadSize,
        Refusal::BadSheet,
        Refusal::BadList,
        Refusal::BadPlace,
        Refusal::IdInUse,
        Refusal::IdNotInUse,
        Refusal::NoSlot,
        Refusal::EndClosed,
        Refusal::NoDrive,
        Refusal::ShortRoute,
        Refusal::NotAssured,
        Refusal::BadLetters,
        Refusal::BadHeader,
        Refusal::ShortRaster,
        Refusal::LongRaster,
        Refusal::SharedCrossing,
        Refusal::ShortOutput,
        Refusal::BadLargest,
        Refusal::NoLines,
    ];

    /// The refusal's number, 1 to 19.
    pub const fn number(self) -> u8 {
        self as u8
    }

    /// The answer where the library's number is 0, else the refusal with that number.
    ///
    /// The library gives no number over 19. One that did would not be this library: that is never
    /// taken as success.
    pub(crate) fn or<T>(number: u8, answer: T) -> Result<T, Refusal> {
        match number {
            0 => Ok(answer),
            number => Err(Refusal::try_from(number).expect("the library gives no such refusal")),
        }
    }
}

impl fmt::Display for Refusal {
    fn fmt(&self, f: &mut fmt::Formatter<'_>) -> fmt::Result {
        write!(f, "refused {}: ", self.number())?;
        match self {
            Refusal::BadSize => write!(f, "width or height is 0 or over {SIDE}"),
            Refusal::BadSheet => f.write_str(
                "a lent sheet is not width times height bytes (of distances: numbers)",
            ),
            Refusal::BadList => write!(
                f,
                "count over {MARKERS} or over the list lent, an id 0, ids not rising, or a marker off \
                 the map"
            ),
            Refusal::BadPlace => f.write_str("a place or new marker is off the map, or a new id is 0"),
            Refusal::IdInUse => f.write_str("the id to enter is in use"),
            Refusal::IdNotInUse => f.write_str("the id to clear is not in use"),
            Refusal::NoSlot => write!(f, "no slot: the markers would pass the list lent or {MARKERS}"),
            Refusal::EndClosed => f.write_str("an end (home, place, s or d) is closed"),
            Refusal::NoDrive => f.write_str("both ends are open, but there is no shortest drive"),
            Refusal::ShortRoute => f.write_str("the route buffer is shorter than distance + 1"),
            Refusal::NotAssured => f.write_str("home is not assured"),
            Refusal::BadLetters => {
                f.write_str("the file does not start with P1 or P4, or the picture with P5")
            }
            Refusal::BadHeader => f.write_str(
                "the header is against the rules or cut short, or a P1 raster has a byte before its last \
                 digit that is neither 0, 1 nor blank",
            ),
            Refusal::ShortRaster => f.write_str("the raster ends early"),
            Refusal::LongRaster => f.write_str("there are bytes after the raster"),
            Refusal::SharedCrossing => f.write_str("two markers stand on one crossing"),
            Refusal::ShortOutput => f.write_str("the output is too short for the whole file"),
            Refusal::BadLargest => f.write_str("the picture's largest value is neither 255 nor 65535"),
            Refusal::NoLines => f.write_str("no column and row between the ends are open throughout"),
        }
    }
}

impl Error for Refusal {}

/// A number that is no refusal's: 0, which is success, or a number over 19.
#[derive(Clone, Copy, Debug, PartialEq, Eq, Hash)]
pub struct NoRefusal(
    /// The number.
    pub u8,
);

impl fmt::Display for NoRefusal {
    fn fmt(&self, f: &mut fmt::Formatter<'_>) -> fmt::Result {
        write!(f, "{} is no refusal's number", self.0)
    }
}

impl Error for NoRefusal {}

/// The refusal with a number.
///
/// ```
/// use grainbodkin::{NoRefusal, Refusal};
///
/// assert_eq!(Refusal::try_from(9), Ok(Refusal::NoDrive));
/// assert_eq!(Refusal::try_from(0), Err(NoRefusal(0)));
/// assert_eq!(Refusal::try_from(20), Err(NoRefusal(20)));
/// ```
impl TryFrom<u8> for Refusal {
    type Error = NoRefusal;

    fn try_from(number: u8) -> Result<Refusal, NoRefusal> {
        Refusal::ALL
            .into_iter()
            .find(|refusal| refusal.number() == number)
            .ok_or(NoRefusal(number))
    }
}

impl From<Refusal> for u8 {
    fn from(refusal: Refusal) -> u8 {
        refusal.number()
    }
}
