//! The map writer: P4. The markers are stamped on a sheet first, low ones included; fewer marks than
//! markers tell that two share a crossing. Then the rocks are.
use super::judging::prepare;
use super::limits::*;
use super::records;
use grainbodkin_sys::Marker;

/// Writes the rocks of a cart of this clearance as a map file. Hands back the number of bytes
/// written, or refusal 1, 3, 16 or 17, which changes none.
pub fn write_list(
    list: &[Marker],
    count: usize,
    w: usize,
    h: usize,
    clearance: u16,
    out: &mut [u8],
) -> Result<usize, u8> {
    let mut sheet = [OPEN; MOST_CROSSINGS];
    let size = if w <= SIDE && h <= SIDE { w * h } else { 0 };
    let sheet = &mut sheet[..size];
    let markers = prepare(list, count, w, h, (0, 0), (0, 0), true, sheet)?;
    records::stamp_all(markers, w, sheet);
    if sheet.iter().filter(|&&b| b != OPEN).count() != count {
        return Err(SHARED_CROSSING);
    }
    records::stamp(markers, clearance, w, sheet);
    write(sheet, w, h, out).ok_or(SHORT_OUTPUT)
}

/// Writes the map whose rocks are stamped on the sheet, if the output holds it.
fn write(sheet: &[u8], w: usize, h: usize, out: &mut [u8]) -> Option<usize> {
    let (a, b) = (digit_count(w), digit_count(h));
    let start = 3 + a + 1 + b + 1;
    let end = start + h * w.div_ceil(8);
    let (header, rows) = out.get_mut(..end)?.split_at_mut(start);
    header[..3].copy_from_slice(b"P4\n");
    write_number(&mut header[3..3 + a], w);
    header[3 + a] = b' ';
    write_number(&mut header[4 + a..4 + a + b], h);
    header[start - 1] = b'\n';
    write_rows(sheet, w, rows);
    Some(end)
}

/// How many decimal digits a width or height has.
pub fn digit_count(v: usize) -> usize {
    match v {
        0..10 => 1,
        10..100 => 2,
        _ => 3,
    }
}

/// Fills the slice with a number's digits, from its end.
pub fn write_number(out: &mut [u8], mut v: usize) {
    for digit in out.iter_mut().rev() {
        *digit = b'0' + (v % 10) as u8;
        v /= 10;
    }
}

/// The packed rows, the northmost first, each into its own part of the output; the westmost
/// crossing in the highest bit, pad bits 0.
fn write_rows(sheet: &[u8], w: usize, out: &mut [u8]) {
    let parts = out.chunks_exact_mut(w.div_ceil(8));
    for (row, part) in sheet.chunks_exact(w).rev().zip(parts) {
        for (eight, byte) in row.chunks(8).zip(part) {
            let bits = eight
                .iter()
                .fold(0, |bits, &b| bits * 2 + (b != OPEN) as u8);
            *byte = bits << (8 - eight.len());
        }
    }
}
