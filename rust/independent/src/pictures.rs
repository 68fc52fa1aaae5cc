//! Document 02, Req 03 and 07: a sheet of distances as a raw PGM picture, written and read back,
//! and an old one read.
use crate::distances::NONE;
use crate::files::header;
use crate::map::Map;
use crate::refusals::{first_that_applies, DONE};
use std::cmp::Ordering;

/// "PGM sheets are written with largest value 65535, two bytes a crossing, high byte first"
const LARGEST: usize = 65_535;

/// "Old one-byte sheets are still read, their 255 becoming 65,535."
const OLD_LARGEST: usize = 255;

/// What writing leaves.
#[derive(Clone, Debug, PartialEq, Eq)]
pub struct SheetWritten {
    pub refusal: u8,
    pub bytes: usize,
    pub out: Vec<u8>,
}

/// What reading leaves.
#[derive(Clone, Debug, PartialEq, Eq)]
pub struct SheetRead {
    pub refusal: u8,
    pub width: usize,
    pub height: usize,
    pub sheet: Vec<u16>,
}

/// Rows taken from the other end: from the south to the north, or back.
fn turned(width: usize, numbers: &[u16]) -> Vec<u16> {
    numbers.chunks(width).rev().flatten().copied().collect()
}

/// "P5", LF, width, space, height, LF, "65535", LF, two bytes a crossing, north row first.
pub fn picture_file(map: Map, sheet: &[u16]) -> Vec<u8> {
    let mut file = format!("P5\n{} {}\n{LARGEST}\n", map.width, map.height).into_bytes();
    for number in turned(map.width, sheet) {
        file.push((number / 256) as u8);
        file.push((number % 256) as u8);
    }
    file
}

/// The numbers of an old raster, in its order.
fn one_byte(raster: &[u8]) -> Vec<u16> {
    let number = |&byte: &u8| if byte == 255 { NONE } else { u16::from(byte) };
    raster.iter().map(number).collect()
}

/// The numbers of a new raster, in its order.
fn two_bytes(raster: &[u8]) -> Vec<u16> {
    let number = |two: &[u8]| 256 * u16::from(two[0]) + u16::from(two[1]);
    raster.chunks(2).map(number).collect()
}

/// Writes a sheet as a picture to the front of the output.
pub fn write(sheet: &[u16], map: Map, out: &[u8]) -> SheetWritten {
    let refusal = first_that_applies(&[
        (1, &|| map.bad_size()),
        (2, &|| map.bad_sheet(sheet.len())),
        (17, &|| out.len() < picture_file(map, sheet).len()),
    ]);
    let mut after = out.to_vec();
    let mut bytes = 0;
    if refusal == DONE {
        let file = picture_file(map, sheet);
        bytes = file.len();
        after[..bytes].copy_from_slice(&file);
    }
    SheetWritten {
        refusal,
        bytes,
        out: after,
    }
}

/// The picture that a file is for a sheet of so many numbers, or the refusal: 12, 13, 1, 18, 2, 14
/// or 15.
fn picture(file: &[u8], lent: usize) -> Result<(Map, Vec<u16>), u8> {
    if file.get(..2) != Some(b"P5") {
        return Err(12);
    }
    let ([width, height, largest], at) = header(file).ok_or(13)?;
    let map = Map { width, height };
    if map.bad_size() {
        return Err(1);
    }
    let (each, numbers): (usize, fn(&[u8]) -> Vec<u16>) = match largest {
        OLD_LARGEST => (1, one_byte),
        LARGEST => (2, two_bytes),
        _ => return Err(18),
    };
    if map.bad_sheet(lent) {
        return Err(2);
    }
    let raster = &file[at..];
    match raster.len().cmp(&(width * height * each)) {
        Ordering::Less => Err(14),
        Ordering::Greater => Err(15),
        Ordering::Equal => Ok((map, turned(width, &numbers(raster)))),
    }
}

/// Reads a picture into a sheet.
pub fn read(file: &[u8], sheet: &[u16]) -> SheetRead {
    match picture(file, sheet.len()) {
        Ok((map, sheet)) => SheetRead {
            refusal: DONE,
            width: map.width,
            height: map.height,
            sheet,
        },
        Err(refusal) => SheetRead {
            refusal,
            width: 0,
            height: 0,
            sheet: sheet.to_vec(),
        },
    }
}

#[cfg(test)]
mod tests {
    use super::*;

    /// What is written reads back as the same sheet.
    #[test]
    fn there_and_back() {
        let map = Map::new(2, 3);
        let sheet = [0, 1, 2, 256, 255, NONE];
        let written = write(&sheet, map, &[9; 40]);
        assert_eq!(
            &written.out[..written.bytes],
            b"P5\n2 3\n65535\n\0\xff\xff\xff\0\x02\x01\0\0\0\0\x01"
        );
        let back = read(&written.out[..written.bytes], &[7; 6]);
        assert_eq!((back.refusal, back.width, back.height), (0, 2, 3));
        assert_eq!(back.sheet, sheet);
    }

    /// An old picture: 254 stays and 255 becomes the mark.
    #[test]
    fn old_ones() {
        let back = read(b"P5 2 2 255 \xfe\xff\0\x01", &[7; 4]);
        assert_eq!((back.refusal, back.sheet), (0, vec![0, 1, 254, NONE]));
    }

    /// The largest value, then the sheet, then the raster's length, by its kind.
    #[test]
    fn refusals() {
        for (file, lent, refusal) in [
            (&b"P5 2 2 256 abcdefgh"[..], 4, 18),
            (b"P5 2 2 65534 ", 3, 18),
            (b"P5 2 2 255 abcd", 2, 2),
            (b"P5 2 2 65535 abcdefgh", 8, 2),
            (b"P5 2 2 255 abc", 4, 14),
            (b"P5 2 2 255 abcde", 4, 15),
            (b"P5 2 2 65535 abcd", 4, 14),
            (b"P5 2 2 65535 abcdefg", 4, 14),
            (b"P5 2 2 65535 abcdefghi", 4, 15),
            (b"P5 257 2 65535 ", 4, 1),
        ] {
            let after = read(file, &vec![7; lent]);
            assert_eq!((after.refusal, after.sheet), (refusal, vec![7; lent]));
        }
    }
}
