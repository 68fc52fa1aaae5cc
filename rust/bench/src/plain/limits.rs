//! The limits, label bytes and refusal numbers of document 01, as the requests have them now.

/// Width and height: 1 to so many each.
pub const SIDE: usize = 256;

/// So many markers are in use at most.
pub const MOST_MARKERS: usize = 8192;

/// So many crossings a map has at most.
pub const MOST_CROSSINGS: usize = SIDE * SIDE;

/// The height of a marker that is read from a map file.
pub const TALLEST: u16 = 65_535;

/// The mark of a distance that there is none.
pub const NONE: u16 = 65_535;

/// A label sheet's bytes.
pub const OPEN: u8 = 0;
pub const ROCK: u8 = 1;
pub const SHUT: u8 = 2;

/// Refusal numbers, and 0 on success.
pub const SUCCESS: u8 = 0;
pub const BAD_SIZE: u8 = 1;
pub const BAD_SHEET: u8 = 2;
pub const BAD_LIST: u8 = 3;
pub const BAD_PLACE: u8 = 4;
pub const ID_IN_USE: u8 = 5;
pub const ID_NOT_IN_USE: u8 = 6;
pub const NO_SLOT: u8 = 7;
pub const END_CLOSED: u8 = 8;
pub const NO_DRIVE: u8 = 9;
pub const SHORT_ROUTE: u8 = 10;
pub const NOT_ASSURED: u8 = 11;
pub const BAD_LETTERS: u8 = 12;
pub const BAD_HEADER: u8 = 13;
pub const SHORT_RASTER: u8 = 14;
pub const LONG_RASTER: u8 = 15;
pub const SHARED_CROSSING: u8 = 16;
pub const SHORT_OUTPUT: u8 = 17;
pub const BAD_LARGEST: u8 = 18;
pub const NO_LINES: u8 = 19;

/// The largest value of a picture, and of an old one with its mark of no distance.
pub const LARGEST: usize = 65_535;
pub const OLD_LARGEST: usize = 255;
pub const OLD_NONE: u8 = 255;

/// The bytes that bound a map of a stream, and the maps of a run.
pub const MOST_BYTES: usize = 65_536;
pub const MOST_MAPS: usize = 65_535;

/// A crossing, or a place asked.
pub type Place = (usize, usize);
