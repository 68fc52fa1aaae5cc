//! Labelling sweep by sweep, on a stamped sheet, with the number of sweeps that changed something:
//! by a queue of the crossings that the last sweep closed, as the library does it; and over whole
//! maps, as the definition has it.
use super::limits::*;

/// What stands for a shut crossing while the sweep that closes it is made. Until the sweep is over
/// such a crossing counts as open.
const NEW: u8 = 3;

/// Whether a crossing was closed before the sweep that is being made.
fn closed(b: u8) -> usize {
    usize::from(b == ROCK || b == SHUT)
}

/// How many neighbours of (x, y) were closed before the sweep.
fn beside(sheet: &[u8], w: usize, h: usize, x: usize, y: usize) -> usize {
    let i = y * w + x;
    let mut n = 0;
    if x + 1 < w {
        n += closed(sheet[i + 1]);
    }
    if x > 0 {
        n += closed(sheet[i - 1]);
    }
    if y + 1 < h {
        n += closed(sheet[i + w]);
    }
    if y > 0 {
        n += closed(sheet[i - w]);
    }
    n
}

/// The queue: numbers of closed crossings, in the order in which sweeps close them.
struct Queue {
    numbers: [u16; MOST_CROSSINGS],
    end: usize,
}

impl Queue {
    fn put(&mut self, i: usize) {
        self.numbers[self.end] = i as u16;
        self.end += 1;
    }
}

/// Judges (x, y) on the state before the sweep.
fn judge(sheet: &mut [u8], w: usize, h: usize, x: usize, y: usize, queue: &mut Queue) {
    let i = y * w + x;
    if sheet[i] == OPEN && beside(sheet, w, h, x, y) >= 2 {
        sheet[i] = NEW;
        queue.put(i);
    }
}

/// Judges every neighbour of the crossing of number i.
fn spread(sheet: &mut [u8], w: usize, h: usize, i: usize, queue: &mut Queue) {
    let (x, y) = (i % w, i / w);
    if x + 1 < w {
        judge(sheet, w, h, x + 1, y, queue);
    }
    if x > 0 {
        judge(sheet, w, h, x - 1, y, queue);
    }
    if y + 1 < h {
        judge(sheet, w, h, x, y + 1, queue);
    }
    if y > 0 {
        judge(sheet, w, h, x, y - 1, queue);
    }
}

/// Labels a sheet on which the rocks are stamped, and hands back the number of sweeps that changed
/// something.
pub fn by_queue(sheet: &mut [u8], w: usize, h: usize) -> usize {
    let mut queue = Queue {
        numbers: [0; MOST_CROSSINGS],
        end: 0,
    };
    for (i, &b) in sheet.iter().enumerate() {
        if b != OPEN {
            queue.put(i);
        }
    }
    let mut sweeps = 0;
    let mut lo = 0;
    loop {
        let hi = queue.end;
        for j in lo..hi {
            let i = queue.numbers[j] as usize;
            spread(sheet, w, h, i, &mut queue);
        }
        if queue.end == hi {
            return sweeps;
        }
        for &i in &queue.numbers[hi..queue.end] {
            sheet[i as usize] = SHUT;
        }
        sweeps += 1;
        lo = hi;
    }
}

/// The same by sweeps of the whole map.
pub fn by_whole_maps(sheet: &mut [u8], w: usize, h: usize) -> usize {
    let mut sweeps = 0;
    loop {
        let mut changed = false;
        for y in 0..h {
            for x in 0..w {
                let i = y * w + x;
                if sheet[i] == OPEN && beside(sheet, w, h, x, y) >= 2 {
                    sheet[i] = NEW;
                    changed = true;
                }
            }
        }
        if !changed {
            return sweeps;
        }
        for b in sheet.iter_mut() {
            if *b == NEW {
                *b = SHUT;
            }
        }
        sweeps += 1;
    }
}
