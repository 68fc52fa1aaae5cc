//! Sheets of distances as P5 pictures, written with two bytes a crossing and read with two or with
//! one: a row at a time, each into its own part.
use super::header::header;
use super::judging::{fits, sized};
use super::limits::*;
use super::writer::{digit_count, write_number};

/// Hands back the number of bytes written, or refusal 1, 2 or 17, which changes none.
pub fn write(sheet: &[u16], w: usize, h: usize, out: &mut [u8]) -> Result<usize, u8> {
    if !sized(w, h) {
        return Err(BAD_SIZE);
    }
    if !fits(w, h, sheet.len()) {
        return Err(BAD_SHEET);
    }
    let (a, b) = (digit_count(w), digit_count(h));
    let start = a + b + 11;
    let end = start + 2 * h * w;
    let (header, rows) = out.get_mut(..end).ok_or(SHORT_OUTPUT)?.split_at_mut(start);
    header[..3].copy_from_slice(b"P5\n");
    write_number(&mut header[3..3 + a], w);
    header[3 + a] = b' ';
    write_number(&mut header[4 + a..4 + a + b], h);
    header[4 + a + b] = b'\n';
    write_number(&mut header[5 + a + b..start - 1], LARGEST);
    header[start - 1] = b'\n';
    write_rows(sheet, w, rows);
    Ok(end)
}

/// The rows from the north, high byte first.
fn write_rows(sheet: &[u16], w: usize, out: &mut [u8]) {
    let parts = out.chunks_exact_mut(2 * w);
    for (row, part) in sheet.chunks_exact(w).rev().zip(parts) {
        for (number, two) in row.iter().zip(part.chunks_exact_mut(2)) {
            two.copy_from_slice(&number.to_be_bytes());
        }
    }
}

/// A raster of two bytes a crossing, its rows from the north.
fn read_two(raster: &[u8], w: usize, sheet: &mut [u16]) {
    let rows = raster.chunks_exact(2 * w);
    for (row, part) in rows.zip(sheet.chunks_exact_mut(w).rev()) {
        for (two, number) in row.chunks_exact(2).zip(part) {
            *number = u16::from_be_bytes([two[0], two[1]]);
        }
    }
}

/// A raster of one byte a crossing: its 255 is none.
fn read_one(raster: &[u8], w: usize, sheet: &mut [u16]) {
    let rows = raster.chunks_exact(w);
    for (row, part) in rows.zip(sheet.chunks_exact_mut(w).rev()) {
        for (&byte, number) in row.iter().zip(part) {
            *number = if byte == OLD_NONE {
                NONE
            } else {
                u16::from(byte)
            };
        }
    }
}

/// Hands back width and height, or refusal 12, 13, 1, 18, 2, 14 or 15, which changes no number.
pub fn read(file: &[u8], sheet: &mut [u16]) -> Result<(usize, usize), u8> {
    let rest = file.strip_prefix(b"P5").ok_or(BAD_LETTERS)?;
    let mut numbers = [0; 3];
    let raster = header(rest, &mut numbers).ok_or(BAD_HEADER)?;
    let [w, h, largest] = numbers;
    if !sized(w, h) {
        return Err(BAD_SIZE);
    }
    let each = match largest {
        OLD_LARGEST => 1,
        LARGEST => 2,
        _ => return Err(BAD_LARGEST),
    };
    if !fits(w, h, sheet.len()) {
        return Err(BAD_SHEET);
    }
    if raster.len() < each * w * h {
        return Err(SHORT_RASTER);
    }
    if raster.len() > each * w * h {
        return Err(LONG_RASTER);
    }
    if each == 2 {
        read_two(raster, w, sheet);
    } else {
        read_one(raster, w, sheet);
    }
    Ok((w, h))
}
