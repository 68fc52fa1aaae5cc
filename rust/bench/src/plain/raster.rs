//! The two rasters. Each is read once, into one byte a crossing in raster order, and its rocks are
//! counted; the list is filled from these bits once nothing is left to refuse.
use super::header::is_blank;
use super::limits::*;
use grainbodkin_sys::Marker;

/// Reads a P1 raster: digits 0 and 1, blanks allowed anywhere. The number of its rocks, or the
/// first fault met, 13, 14 or 15.
pub fn read_plain(raster: &[u8], w: usize, h: usize, bits: &mut [u8]) -> Result<usize, u8> {
    let mut digits = 0;
    let mut rocks = 0;
    for &b in raster {
        match b {
            b'0' | b'1' => {
                if digits == w * h {
                    return Err(LONG_RASTER);
                }
                bits[digits] = b - b'0';
                digits += 1;
                rocks += (b - b'0') as usize;
            }
            b if is_blank(b) => {}
            _ if digits == w * h => return Err(LONG_RASTER),
            _ => return Err(BAD_HEADER),
        }
    }
    if digits < w * h {
        return Err(SHORT_RASTER);
    }
    Ok(rocks)
}

/// Whether column x of a packed row has a rock: highest bit westmost.
fn bit(row: &[u8], x: usize) -> u8 {
    row[x / 8] >> (7 - x % 8) & 1
}

/// Reads a P4 raster: as many bytes as the packed rows have, or 14 or 15. The number of its rocks;
/// pad bits are not looked at.
pub fn read_raw(raster: &[u8], w: usize, h: usize, bits: &mut [u8]) -> Result<usize, u8> {
    let bytes = w.div_ceil(8);
    if raster.len() < bytes * h {
        return Err(SHORT_RASTER);
    }
    if raster.len() > bytes * h {
        return Err(LONG_RASTER);
    }
    let mut rocks = 0;
    for (row, part) in raster.chunks_exact(bytes).zip(bits.chunks_exact_mut(w)) {
        for (x, b) in part.iter_mut().enumerate() {
            *b = bit(row, x);
            rocks += *b as usize;
        }
    }
    Ok(rocks)
}

/// Fills the first slots of the list from a map's bits, in raster order, with ids 1, 2, 3 and on.
pub fn fill(list: &mut [Marker], bits: &[u8], w: usize, h: usize) {
    let rocks = bits.iter().enumerate().filter(|(_, &b)| b != 0);
    for (k, (slot, (place, _))) in list.iter_mut().zip(rocks).enumerate() {
        *slot = Marker {
            id: (k + 1) as u16,
            x: (place % w) as u16,
            y: (h - 1 - place / w) as u16,
            height: TALLEST,
        };
    }
}
