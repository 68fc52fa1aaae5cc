//! "Map files": PBM read and written, byte by byte at positions of the file.
use crate::labels::rocks;
use crate::map::{Crossing, Crossings, Map};
use crate::markers::{bad_list, Marker, MOST, TALLEST};
use crate::refusals::{first_that_applies, DONE};

/// What reading leaves.
#[derive(Clone, Debug, PartialEq, Eq)]
pub struct ReadMap {
    pub refusal: u8,
    pub width: usize,
    pub height: usize,
    pub count: usize,
    pub list: Vec<Marker>,
}

/// What writing leaves.
#[derive(Clone, Debug, PartialEq, Eq)]
pub struct WroteMap {
    pub refusal: u8,
    pub bytes: usize,
    pub out: Vec<u8>,
}

/// A file's map: its size and its rocks in raster order.
#[derive(Clone, Debug, PartialEq, Eq)]
pub struct Picture {
    pub map: Map,
    pub rocks: Vec<Crossing>,
}

/// The two rasters.
#[derive(Clone, Copy, PartialEq, Eq)]
enum Raster {
    Plain,
    Raw,
}

/// Space, TAB, CR or LF.
pub fn is_blank(byte: u8) -> bool {
    [0x20, 0x09, 0x0D, 0x0A].contains(&byte)
}

/// Where the comment that starts at `at` ends: after the next CR or LF. None if no comment starts
/// there or it has no end.
fn comment(file: &[u8], at: usize) -> Option<usize> {
    if *file.get(at)? != b'#' {
        return None;
    }
    let length = file[at..].iter().position(|&b| b == b'\r' || b == b'\n')?;
    Some(at + length + 1)
}

/// Where the separator that starts at `at` ends. None if there is none, or only comments.
fn separator(file: &[u8], mut at: usize) -> Option<usize> {
    let mut blanks = 0;
    loop {
        if file.get(at).is_some_and(|&b| is_blank(b)) {
            blanks += 1;
            at += 1;
        } else if let Some(end) = comment(file, at) {
            at = end;
        } else {
            return (blanks > 0).then_some(at);
        }
    }
}

/// The number that starts at `at`, 1 to 9 digits, and where it ends.
fn number(file: &[u8], at: usize) -> Option<(usize, usize)> {
    let digits: Vec<u8> = file[at..]
        .iter()
        .copied()
        .take_while(u8::is_ascii_digit)
        .collect();
    if digits.is_empty() || digits.len() > 9 {
        return None;
    }
    let value = digits
        .iter()
        .fold(0, |value, digit| value * 10 + usize::from(digit - b'0'));
    Some((value, at + digits.len()))
}

/// So many numbers and where the raster starts, of a file that starts with its two letters.
pub fn header<const N: usize>(file: &[u8]) -> Option<([usize; N], usize)> {
    let mut numbers = [0; N];
    let mut at = 2;
    for value in &mut numbers {
        (*value, at) = number(file, separator(file, at)?)?;
    }
    is_blank(*file.get(at)?).then_some((numbers, at + 1))
}

/// A plain raster as its digits in order, or the first fault met: a foreign byte before the last
/// digit, the end before it, or more than blanks after it.
fn plain(map: Map, raster: &[u8]) -> Result<Vec<bool>, u8> {
    let mut digits = Vec::new();
    for &byte in raster {
        let all = digits.len() == map.width * map.height;
        match byte {
            _ if is_blank(byte) => {}
            _ if all => return Err(15),
            b'0' => digits.push(false),
            b'1' => digits.push(true),
            _ => return Err(13),
        }
    }
    if digits.len() < map.width * map.height {
        return Err(14);
    }
    Ok(digits)
}

/// The bytes of a raw raster: whole bytes a row.
pub fn raw_bytes(map: Map) -> usize {
    map.width.div_ceil(8) * map.height
}

/// A raw raster as its bits in order without the pad bits, or the fault.
fn raw(map: Map, raster: &[u8]) -> Result<Vec<bool>, u8> {
    if raster.len() < raw_bytes(map) {
        return Err(14);
    }
    if raster.len() > raw_bytes(map) {
        return Err(15);
    }
    Ok(raw_bits(map, raster))
}

/// The bits of so many bytes as the raw raster has.
pub fn raw_bits(map: Map, raster: &[u8]) -> Vec<bool> {
    let mut bits = Vec::new();
    for row in raster.chunks(map.width.div_ceil(8)) {
        let packed = row
            .iter()
            .flat_map(|byte| (0..8).rev().map(move |bit| byte >> bit & 1 == 1));
        bits.extend(packed.take(map.width));
    }
    bits
}

/// The rocks of a raster's marks, in raster order: the first row is the northmost.
pub fn rocks_of(map: Map, marks: Vec<bool>) -> Vec<Crossing> {
    let places = (0..map.height)
        .rev()
        .flat_map(|y| (0..map.width).map(move |x| Crossing::new(x, y)));
    places
        .zip(marks)
        .filter(|(_, rock)| *rock)
        .map(|(c, _)| c)
        .collect()
}

/// The map that a file is, or the refusal: 12, 13 in the header, 1, then 13, 14 or 15 in the
/// raster.
pub fn picture(file: &[u8]) -> Result<Picture, u8> {
    let raster = match file.get(..2) {
        Some(b"P1") => Raster::Plain,
        Some(b"P4") => Raster::Raw,
        _ => return Err(12),
    };
    let ([width, height], at) = header(file).ok_or(13)?;
    let map = Map { width, height };
    if map.bad_size() {
        return Err(1);
    }
    let marks = match raster {
        Raster::Plain => plain(map, &file[at..])?,
        Raster::Raw => raw(map, &file[at..])?,
    };
    let rocks = rocks_of(map, marks);
    Ok(Picture { map, rocks })
}

/// Refusal 7 for a list of so many slots: a map may have more rocks than a list may hold.
pub fn fitting(picture: Picture, slots: usize) -> Result<Picture, u8> {
    if picture.rocks.len() > slots || picture.rocks.len() > MOST {
        return Err(7);
    }
    Ok(picture)
}

/// The markers of a file's rocks, at most as many as a list may hold: ids 1, 2, 3 and on, in raster
/// order. "Markers read from a map file get 65,535" (Req 08) as their height.
pub fn markers_of(rocks: &[Crossing]) -> Vec<Marker> {
    let with_ids = rocks.iter().zip(1u16..);
    with_ids
        .map(|(c, id)| Marker {
            id,
            x: c.x as u16,
            y: c.y as u16,
            height: TALLEST,
        })
        .collect()
}

/// Reads a map file into the first slots of a list.
pub fn read(file: &[u8], list: &[Marker]) -> ReadMap {
    match picture(file).and_then(|p| fitting(p, list.len())) {
        Ok(picture) => {
            let mut after = list.to_vec();
            after[..picture.rocks.len()].copy_from_slice(&markers_of(&picture.rocks));
            ReadMap {
                refusal: DONE,
                width: picture.map.width,
                height: picture.map.height,
                count: picture.rocks.len(),
                list: after,
            }
        }
        Err(refusal) => ReadMap {
            refusal,
            width: 0,
            height: 0,
            count: 0,
            list: list.to_vec(),
        },
    }
}

/// The whole raw file of a set of rocks.
pub fn raw_file(map: Map, rocks: &Crossings) -> Vec<u8> {
    let mut file = format!("P4\n{} {}\n", map.width, map.height).into_bytes();
    for y in (0..map.height).rev() {
        for byte in 0..map.width.div_ceil(8) {
            let rock = |bit: usize| rocks.contains(&Crossing::new(byte * 8 + bit, y));
            file.push((0..8).map(|bit| u8::from(rock(bit)) << (7 - bit)).sum());
        }
    }
    file
}

/// Two markers, of whatever heights, stand on one crossing: "16 looks at all markers, low ones
/// included" (Req 08).
fn shared(used: &[Marker]) -> bool {
    let places: Crossings = used.iter().map(|m| m.crossing()).collect();
    places.len() < used.len()
}

/// Writes the rocks of a cart of this clearance as a raw file to the front of the output.
pub fn write(list: &[Marker], count: usize, map: Map, clearance: u16, out: &[u8]) -> WroteMap {
    let file = || raw_file(map, &rocks(&list[..count], clearance));
    let refusal = first_that_applies(&[
        (1, &|| map.bad_size()),
        (3, &|| bad_list(map, list, count)),
        (16, &|| shared(&list[..count])),
        (17, &|| out.len() < file().len()),
    ]);
    let mut after = out.to_vec();
    let mut bytes = 0;
    if refusal == DONE {
        bytes = file().len();
        after[..bytes].copy_from_slice(&file());
    }
    WroteMap {
        refusal,
        bytes,
        out: after,
    }
}
