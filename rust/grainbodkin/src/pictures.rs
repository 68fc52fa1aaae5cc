//! Sheets as raw PGM pictures, for a field viewer.

use crate::{calls, Map, Refusal};

/// The largest value of a picture that is written, its header's third number: two bytes a crossing.
pub const LARGEST: usize = 65_535;

/// The largest value of an old picture, which is read too: one byte a crossing.
pub const OLD_LARGEST: usize = 255;

/// Writes a sheet of one sixteen-bit number a crossing as a raw PGM picture, two bytes a crossing,
/// high byte first, and the north row first, to the front of `out`; and hands back how many bytes
/// it takes: [`Map::picture_len`]. Bytes past the end stay.
///
/// Refuses 1, 2 or 17; then no byte changes.
///
/// ```
/// use grainbodkin::{read_sheet, write_sheet, Cart, Map, Markers, Place};
///
/// let cart = Cart::new(20);
/// let mut markers = Markers::new(Map::new(3, 2)?, 4);
/// markers.enter(1, Place::new(2, 0), 30)?;
/// let distances = markers.measure(cart)?;
/// let mut picture = [0; 40];
/// let bytes = write_sheet(distances.east(), 3, 2, &mut picture)?;
/// assert_eq!(&picture[..bytes], b"P5\n3 2\n65535\n\xff\xff\xff\xff\xff\xff\0\x02\0\x01\0\0");
///
/// // What is written reads back as the same sheet.
/// let mut sheet = [0; 6];
/// assert_eq!(read_sheet(&picture[..bytes], &mut sheet)?, Map::new(3, 2)?);
/// assert_eq!(sheet, distances.east());
/// # Ok::<(), grainbodkin::Refusal>(())
/// ```
pub fn write_sheet(
    sheet: &[u16],
    width: usize,
    height: usize,
    out: &mut [u8],
) -> Result<usize, Refusal> {
    let answer = calls::write_sheet(sheet, width, height, out);
    Refusal::or(answer.refusal, answer.bytes)
}

/// Reads a raw PGM picture into a sheet of its size, by crossing number, and hands back the map's
/// size. Its largest value is [`LARGEST`], with two bytes a crossing, or [`OLD_LARGEST`], with one
/// byte, whose 255 becomes [`NO_DISTANCE`](crate::NO_DISTANCE). The sheet is only numbers: nothing
/// is said of it against any list.
///
/// Refuses 12, 13, 1, 18, 2, 14 or 15, in this order; then no byte changes.
///
/// ```
/// use grainbodkin::{read_sheet, Refusal};
///
/// let mut sheet = [7; 6];
/// assert_eq!(read_sheet(b"P5 2 3 254 abcdef", &mut sheet), Err(Refusal::BadLargest));
/// assert_eq!(sheet, [7; 6]);
/// read_sheet(b"P5 2 3 255 ab\xff\xfeef", &mut sheet)?;
/// assert_eq!(sheet, [101, 102, 65_535, 254, 97, 98]);
/// # Ok::<(), Refusal>(())
/// ```
pub fn read_sheet(file: &[u8], sheet: &mut [u16]) -> Result<Map, Refusal> {
    let answer = calls::read_sheet(file, sheet);
    Refusal::or(answer.refusal, ())?;
    Map::new(answer.width, answer.height)
}
