//! Labelling by rows of bits, from the list of markers to the sheet: a row's crossings are the bits
//! of its words, and a crossing closes if two of its four neighbours are closed, for a whole word
//! at once. A row of zeros stands on either side of the map. Nothing is stamped: the rocks' bits
//! come straight from the markers, and every byte of the sheet is written once, eight at a time.
use super::limits::*;
use grainbodkin_sys::{Labelling, Marker};

/// N words a row, the westmost first, 64 crossings to a word. Row y is row y + 1 here.
type Rows<const N: usize> = [[u64; N]; SIDE + 2];

/// Labels the map of these markers, which stand on it, for a cart of this clearance. A row has as
/// many words as the width needs.
pub fn label(
    markers: &[Marker],
    clearance: u16,
    w: usize,
    h: usize,
    sheet: &mut [u8],
) -> Labelling {
    match w.div_ceil(64) {
        1 => label_rows::<1>(of_markers(markers, clearance), w, h, sheet),
        2 => label_rows::<2>(of_markers(markers, clearance), w, h, sheet),
        3 => label_rows::<3>(of_markers(markers, clearance), w, h, sheet),
        _ => label_rows::<4>(of_markers(markers, clearance), w, h, sheet),
    }
}

/// Labels the map of a raster's bits, one byte a crossing, from the north.
pub fn label_bits(bits: &[u8], w: usize, h: usize, sheet: &mut [u8]) -> Labelling {
    match w.div_ceil(64) {
        1 => label_rows::<1>(of_bits(bits, w), w, h, sheet),
        2 => label_rows::<2>(of_bits(bits, w), w, h, sheet),
        3 => label_rows::<3>(of_bits(bits, w), w, h, sheet),
        _ => label_rows::<4>(of_bits(bits, w), w, h, sheet),
    }
}

fn of_markers<const N: usize>(markers: &[Marker], clearance: u16) -> Rows<N> {
    let mut rocks = [[0; N]; SIDE + 2];
    for m in markers {
        rocks[m.y as usize + 1][m.x as usize / 64] |= u64::from(m.height > clearance) << (m.x % 64);
    }
    rocks
}

fn of_bits<const N: usize>(bits: &[u8], w: usize) -> Rows<N> {
    let mut rocks = [[0; N]; SIDE + 2];
    for (row, words) in bits.chunks_exact(w).rev().zip(&mut rocks[1..]) {
        for (part, word) in row.chunks(64).zip(words) {
            for (x, &b) in part.iter().enumerate() {
                *word |= u64::from(b) << (x % 64);
            }
        }
    }
    rocks
}

/// The bits of a row's words that are crossings.
fn masks<const N: usize>(w: usize) -> [u64; N] {
    std::array::from_fn(|j| match w.saturating_sub(64 * j) {
        0 => 0,
        left => u64::MAX >> (64 - left.min(64)),
    })
}

/// Labels the map with these rocks.
fn label_rows<const N: usize>(rocks: Rows<N>, w: usize, h: usize, sheet: &mut [u8]) -> Labelling {
    let mut closed = rocks;
    close(&mut closed, &masks(w), h);
    for (y, row) in sheet.chunks_exact_mut(w).enumerate() {
        for (j, part) in row.chunks_mut(64).enumerate() {
            write(part, rocks[y + 1][j], closed[y + 1][j]);
        }
    }
    count(&rocks, &closed, h)
}

/// A word's four neighbours: the rows north and south of it, and the words east and west in its
/// own.
#[derive(Clone, Copy)]
struct Around {
    north: u64,
    south: u64,
    east: u64,
    west: u64,
}

/// One step of growing a word between its neighbours.
fn step(word: u64, around: Around, mask: u64) -> u64 {
    let Around { north, south, .. } = around;
    let east = word >> 1 | around.east << 63;
    let west = word << 1 | around.west >> 63;
    word | (((north & south) | (east & west) | ((north | south) & (east | west))) & mask)
}

/// Spreads the set bits along those of `path`, both ways.
fn spread(mut word: u64, path: u64) -> u64 {
    let (mut east, mut west) = (path, path);
    for d in [1, 2, 4, 8, 16, 32] {
        word |= (east & (word << d)) | (west & (word >> d));
        east &= east << d;
        west &= west >> d;
    }
    word
}

/// Grows a word until a step changes nothing: most rest after a step or two, and in others runs
/// close all along.
fn fill(word: u64, around: Around, mask: u64) -> u64 {
    let mut last = word;
    let mut next = step(word, around, mask);
    while next != last {
        let again = step(next, around, mask);
        if again == next {
            break;
        }
        last = spread(again, (around.north | around.south) & mask & !again);
        next = step(last, around, mask);
    }
    next
}

/// Grows word j of row y. Hands back whether it changed.
fn grow_word<const N: usize>(rows: &mut Rows<N>, masks: &[u64; N], y: usize, j: usize) -> bool {
    let beside = |j: usize| rows[y].get(j).copied().unwrap_or(0);
    let around = Around {
        north: rows[y + 1][j],
        south: rows[y - 1][j],
        east: beside(j + 1),
        west: beside(j.wrapping_sub(1)),
    };
    let word = fill(rows[y][j], around, masks[j]);
    let changed = word != rows[y][j];
    rows[y][j] = word;
    changed
}

/// Grows row y: to the east, and where that changes something, back to the west. A row of one word
/// needs no way back.
fn grow_row<const N: usize>(rows: &mut Rows<N>, masks: &[u64; N], y: usize) -> bool {
    let mut changed = false;
    for j in 0..N {
        changed |= grow_word(rows, masks, y, j);
    }
    if N > 1 && changed {
        for j in (0..N).rev() {
            grow_word(rows, masks, y, j);
        }
    }
    changed
}

/// Grows row y if it is marked. A row that changes marks those on either side; one that does not is
/// marked no more.
fn look<const N: usize>(
    rows: &mut Rows<N>,
    marks: &mut [bool; SIDE + 2],
    masks: &[u64; N],
    y: usize,
) -> bool {
    if !marks[y] {
        return false;
    }
    if !grow_row(rows, masks, y) {
        marks[y] = false;
        return false;
    }
    marks[y - 1] = true;
    marks[y + 1] = true;
    true
}

/// Sets the bit of every closed crossing, by sweeps to the north and to the south until one changes
/// nothing.
fn close<const N: usize>(rows: &mut Rows<N>, masks: &[u64; N], h: usize) {
    let mut marks = [true; SIDE + 2];
    loop {
        let mut changed = false;
        for y in 1..=h {
            changed |= look(rows, &mut marks, masks, y);
        }
        if !changed {
            return;
        }
        changed = false;
        for y in (1..=h).rev() {
            changed |= look(rows, &mut marks, masks, y);
        }
        if !changed {
            return;
        }
    }
}

/// The low eight bits as eight bytes of 0 and 1.
fn bytes(bits: u64) -> u64 {
    let each = bits.wrapping_mul(0x0101_0101_0101_0101) & 0x8040_2010_0804_0201;
    (each.wrapping_add(0x7f7f_7f7f_7f7f_7f7f) | each) >> 7 & 0x0101_0101_0101_0101
}

/// Writes the labels of a word's crossings.
fn write(part: &mut [u8], rocks: u64, closed: u64) {
    let shut = closed & !rocks;
    let mut chunks = part.chunks_exact_mut(8);
    let mut at = 0;
    for chunk in &mut chunks {
        let labels = bytes(rocks >> at & 255) + u64::from(SHUT) * bytes(shut >> at & 255);
        chunk.copy_from_slice(&labels.to_le_bytes());
        at += 8;
    }
    for b in chunks.into_remainder() {
        *b = ((rocks >> at & 1) + u64::from(SHUT) * (shut >> at & 1)) as u8;
        at += 1;
    }
}

/// The three numbers: a group is counted at its one closed crossing with neither a closed west nor
/// a closed south neighbour.
fn count<const N: usize>(rocks: &Rows<N>, closed: &Rows<N>, h: usize) -> Labelling {
    let ones = |bits: u64| bits.count_ones() as usize;
    let mut counts = Labelling {
        refusal: SUCCESS,
        rocks: 0,
        shut: 0,
        groups: 0,
    };
    for y in 1..=h {
        let mut west = 0;
        for j in 0..N {
            let here = closed[y][j];
            counts.rocks += ones(rocks[y][j]);
            counts.shut += ones(here & !rocks[y][j]);
            counts.groups += ones(here & !(here << 1 | west >> 63) & !closed[y - 1][j]);
            west = here;
        }
    }
    counts
}
