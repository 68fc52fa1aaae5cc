//! The map reader: P1 and P4. It goes over the file once, into bits of its own, so that a refusal
//! changes no slot.
use super::header::header;
use super::judging::sized;
use super::limits::*;
use super::raster;
use grainbodkin_sys::Marker;

/// Reads a map file into the first slots of the list. Hands back width, height and count, or the
/// refusal.
pub fn read(file: &[u8], list: &mut [Marker]) -> Result<(usize, usize, usize), u8> {
    let (plain, bytes) = match file {
        [b'P', b'1', bytes @ ..] => (true, bytes),
        [b'P', b'4', bytes @ ..] => (false, bytes),
        _ => return Err(BAD_LETTERS),
    };
    let mut sides = [0; 2];
    let body = header(bytes, &mut sides).ok_or(BAD_HEADER)?;
    let [w, h] = sides;
    if !sized(w, h) {
        return Err(BAD_SIZE);
    }
    let mut bits = [0; MOST_CROSSINGS];
    let rocks = if plain {
        raster::read_plain(body, w, h, &mut bits)?
    } else {
        raster::read_raw(body, w, h, &mut bits)?
    };
    if rocks > list.len() || rocks > MOST_MARKERS {
        return Err(NO_SLOT);
    }
    raster::fill(list, &bits[..w * h], w, h);
    Ok((w, h, rocks))
}
