//! Labelling crossing by crossing, on a stamped sheet: what rows of bits are measured against.
//! Every crossing that becomes closed goes on a stack once, and is looked around once when it is
//! taken off. A crossing that is open so far keeps, in its own byte, a note of the direction of the
//! one closed neighbour that was looked around; a second one shuts it.
use super::limits::*;
use grainbodkin_sys::Labelling;

const EAST: u8 = 3;
const SOUTH: u8 = 4;
const WEST: u8 = 5;
const NORTH: u8 = 6;

fn pack(x: usize, y: usize) -> u16 {
    (y * 256 + x) as u16
}

/// Puts every rock on the stack. Hands back its height, as `touch` does.
fn gather(sheet: &[u8], w: usize, stack: &mut [u16; MOST_CROSSINGS]) -> usize {
    let mut k = 0;
    for (y, row) in sheet.chunks_exact(w).enumerate() {
        for (x, &b) in row.iter().enumerate() {
            if b == ROCK {
                stack[k] = pack(x, y);
                k += 1;
            }
        }
    }
    k
}

/// (x, y) has a closed neighbour in the direction that `note` tells: notes it, or shuts the
/// crossing where another one was noted before.
fn touch(
    sheet: &mut [u8],
    w: usize,
    x: usize,
    y: usize,
    note: u8,
    stack: &mut [u16; MOST_CROSSINGS],
    k: usize,
) -> usize {
    let b = &mut sheet[y * w + x];
    if *b == OPEN {
        *b = note;
        k
    } else if *b <= SHUT || *b == note {
        k
    } else {
        *b = SHUT;
        stack[k] = pack(x, y);
        k + 1
    }
}

/// Shuts every crossing of the smallest set that is no rock, and leaves notes at others.
fn close(sheet: &mut [u8], w: usize, h: usize) {
    let mut stack = [0; MOST_CROSSINGS];
    let mut k = gather(sheet, w, &mut stack);
    while k > 0 {
        k -= 1;
        let (x, y) = (stack[k] as usize % 256, stack[k] as usize / 256);
        if x + 1 < w {
            k = touch(sheet, w, x + 1, y, WEST, &mut stack, k);
        }
        if y > 0 {
            k = touch(sheet, w, x, y - 1, NORTH, &mut stack, k);
        }
        if x > 0 {
            k = touch(sheet, w, x - 1, y, EAST, &mut stack, k);
        }
        if y + 1 < h {
            k = touch(sheet, w, x, y + 1, SOUTH, &mut stack, k);
        }
    }
}

/// Labels a sheet on which the rocks are stamped: the closed crossings are found, then the notes
/// are taken off, and rocks, shut crossings and groups are counted. A group is counted at its one
/// closed crossing with neither a closed west nor a closed south neighbour.
pub fn label(sheet: &mut [u8], w: usize, h: usize) -> Labelling {
    close(sheet, w, h);
    settle(sheet, w, h)
}

fn settle(sheet: &mut [u8], w: usize, h: usize) -> Labelling {
    let mut counts = Labelling {
        refusal: SUCCESS,
        rocks: 0,
        shut: 0,
        groups: 0,
    };
    for y in 0..h {
        let (before, rest) = sheet.split_at_mut(y * w);
        let south = before.rchunks_exact(w).next();
        let row = &mut rest[..w];
        for x in 0..w {
            match row[x] {
                OPEN => continue,
                ROCK => counts.rocks += 1,
                SHUT => counts.shut += 1,
                _ => {
                    row[x] = OPEN;
                    continue;
                }
            }
            let west_open = x == 0 || row[x - 1] == OPEN;
            if west_open && south.is_none_or(|row| row[x] == OPEN) {
                counts.groups += 1;
            }
        }
    }
    counts
}
