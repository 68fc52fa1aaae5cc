//! The seventeen calls in plain safe Rust, by the library's methods: what the library is measured
//! against. Same interface, same refusals in the same order, same lent memory. No `unsafe`, nothing
//! left out and nothing added to slow it down.
#![forbid(unsafe_code)]

mod checks;
pub mod depots;
mod distances;
mod drives;
mod following;
mod header;
mod hops;
mod judging;
mod labelling;
mod limits;
mod lines;
mod pictures;
mod placing;
mod raster;
mod reader;
mod records;
mod region;
mod stack;
mod sweeping;
mod writer;

use crate::layer::{Layer, Listing};
use grainbodkin_sys::{
    Assurance, Checked, Counted, CrossingLines, Drove, Four, Homeward, Labelling, Marker, ReadMap,
    SheetRead, SheetWritten, Swept, WroteMap,
};
use judging::{fits, prepare};
use limits::*;

pub use limits::MOST_MARKERS;

/// The plain Rust side. No call is inlined into its caller, as none of the library's is.
pub struct Plain;

impl Listing for Plain {
    #[inline(never)]
    fn enter(
        list: &mut [Marker],
        count: usize,
        w: usize,
        h: usize,
        id: u16,
        x: usize,
        y: usize,
        height: u16,
    ) -> Counted {
        match judging::may_enter(list, count, w, h, id, x, y, height) {
            Err(refusal) => Counted { refusal, count: 0 },
            Ok((marker, _)) => Counted {
                refusal: SUCCESS,
                count: records::enter(list, count, marker),
            },
        }
    }

    #[inline(never)]
    fn clear(list: &mut [Marker], count: usize, w: usize, h: usize, id: u16) -> Counted {
        match judging::may_clear(list, count, w, h, id) {
            Err(refusal) => Counted { refusal, count: 0 },
            Ok(_) => Counted {
                refusal: SUCCESS,
                count: records::clear(list, count, id),
            },
        }
    }
}

impl Layer for Plain {
    #[inline(never)]
    fn label(
        list: &[Marker],
        count: usize,
        w: usize,
        h: usize,
        clearance: u16,
        labels: &mut [u8],
    ) -> Labelling {
        match prepare(list, count, w, h, (0, 0), (0, 0), true, labels) {
            Err(refusal) => Labelling {
                refusal,
                rocks: 0,
                shut: 0,
                groups: 0,
            },
            Ok(markers) => labelling::label(markers, clearance, w, h, labels),
        }
    }

    #[inline(never)]
    fn sweeps(
        list: &[Marker],
        count: usize,
        w: usize,
        h: usize,
        clearance: u16,
        labels: &mut [u8],
    ) -> Swept {
        swept(list, count, w, h, clearance, labels, sweeping::by_queue)
    }

    #[inline(never)]
    fn distances(
        list: &[Marker],
        count: usize,
        w: usize,
        h: usize,
        clearance: u16,
        x: usize,
        y: usize,
        labels: &mut [u8],
    ) -> Four {
        let markers = match prepare(list, count, w, h, (x, y), (x, y), true, labels) {
            Ok(markers) => markers,
            Err(refusal) => {
                let four = [0; 4];
                return Four { refusal, four };
            }
        };
        labelling::label(markers, clearance, w, h, labels);
        Four {
            refusal: SUCCESS,
            four: distances::four(labels, w, x, y),
        }
    }

    #[inline(never)]
    fn measure(
        list: &[Marker],
        count: usize,
        w: usize,
        h: usize,
        clearance: u16,
        labels: &mut [u8],
        east: &mut [u16],
        south: &mut [u16],
        west: &mut [u16],
        north: &mut [u16],
    ) -> u8 {
        let sheets = [east, south, west, north];
        measured(
            list,
            count,
            w,
            h,
            clearance,
            labels,
            sheets,
            distances::measure,
        )
    }

    #[inline(never)]
    fn assured(
        list: &[Marker],
        count: usize,
        w: usize,
        h: usize,
        clearance: u16,
        hx: usize,
        hy: usize,
        x: usize,
        y: usize,
        labels: &mut [u8],
    ) -> Assurance {
        let markers = match prepare(list, count, w, h, (hx, hy), (x, y), true, labels) {
            Ok(markers) => markers,
            Err(refusal) => {
                let assured = false;
                return Assurance { refusal, assured };
            }
        };
        labelling::label(markers, clearance, w, h, labels);
        hops::assurance(labels, w, (hx, hy), (x, y))
    }

    #[inline(never)]
    fn hop(
        list: &[Marker],
        count: usize,
        w: usize,
        h: usize,
        clearance: u16,
        hx: usize,
        hy: usize,
        x: usize,
        y: usize,
        labels: &mut [u8],
    ) -> Homeward {
        let markers = match prepare(list, count, w, h, (hx, hy), (x, y), true, labels) {
            Ok(markers) => markers,
            Err(refusal) => {
                return hops::no_hop(refusal);
            }
        };
        labelling::label(markers, clearance, w, h, labels);
        hops::homeward(labels, w, (hx, hy), (x, y))
    }

    #[inline(never)]
    fn region(
        list: &[Marker],
        count: usize,
        w: usize,
        h: usize,
        clearance: u16,
        sx: usize,
        sy: usize,
        dx: usize,
        dy: usize,
        labels: &mut [u8],
        region: &mut [u8],
    ) -> u8 {
        let others = fits(w, h, region.len());
        let markers = match prepare(list, count, w, h, (sx, sy), (dx, dy), others, labels) {
            Ok(markers) => markers,
            Err(refusal) => {
                return refusal;
            }
        };
        labelling::label(markers, clearance, w, h, labels);
        match region::region(labels, w, (sx, sy), (dx, dy), region) {
            Err(refusal) => refusal,
            Ok(()) => SUCCESS,
        }
    }

    #[inline(never)]
    fn drive(
        list: &[Marker],
        count: usize,
        w: usize,
        h: usize,
        clearance: u16,
        sx: usize,
        sy: usize,
        dx: usize,
        dy: usize,
        labels: &mut [u8],
        region: &mut [u8],
        route: &mut [u16],
        state: &mut u32,
    ) -> Drove {
        let length = 0;
        let others = fits(w, h, region.len());
        let markers = match prepare(list, count, w, h, (sx, sy), (dx, dy), others, labels) {
            Ok(markers) => markers,
            Err(refusal) => {
                return Drove { refusal, length };
            }
        };
        labelling::label(markers, clearance, w, h, labels);
        match drives::drive(labels, w, (sx, sy), (dx, dy), region, route, state) {
            Err(refusal) => Drove { refusal, length },
            Ok(length) => Drove {
                refusal: SUCCESS,
                length,
            },
        }
    }

    #[inline(never)]
    fn check(
        list: &[Marker],
        count: usize,
        w: usize,
        h: usize,
        clearance: u16,
        sx: usize,
        sy: usize,
        dx: usize,
        dy: usize,
        labels: &mut [u8],
        drawn: &[u16],
    ) -> Checked {
        let markers = match prepare(list, count, w, h, (sx, sy), (dx, dy), true, labels) {
            Ok(markers) => markers,
            Err(refusal) => return checks::refused(refusal),
        };
        labelling::label(markers, clearance, w, h, labels);
        checks::check(labels, w, (sx, sy), (dx, dy), drawn)
    }

    #[inline(never)]
    fn lines(
        list: &[Marker],
        count: usize,
        w: usize,
        h: usize,
        clearance: u16,
        sx: usize,
        sy: usize,
        dx: usize,
        dy: usize,
        labels: &mut [u8],
    ) -> CrossingLines {
        let markers = match prepare(list, count, w, h, (sx, sy), (dx, dy), true, labels) {
            Ok(markers) => markers,
            Err(refusal) => return lines::none(refusal),
        };
        labelling::label(markers, clearance, w, h, labels);
        lines::test(labels, w, (sx, sy), (dx, dy))
    }

    #[inline(never)]
    fn lines_drive(
        list: &[Marker],
        count: usize,
        w: usize,
        h: usize,
        clearance: u16,
        sx: usize,
        sy: usize,
        dx: usize,
        dy: usize,
        labels: &mut [u8],
        region: &mut [u8],
        route: &mut [u16],
        state: &mut u32,
    ) -> Drove {
        let length = 0;
        let others = fits(w, h, region.len());
        let markers = match prepare(list, count, w, h, (sx, sy), (dx, dy), others, labels) {
            Ok(markers) => markers,
            Err(refusal) => {
                return Drove { refusal, length };
            }
        };
        labelling::label(markers, clearance, w, h, labels);
        match lines::drive(labels, w, (sx, sy), (dx, dy), region, route, state) {
            Err(refusal) => Drove { refusal, length },
            Ok(length) => Drove {
                refusal: SUCCESS,
                length,
            },
        }
    }

    #[inline(never)]
    fn read(file: &[u8], list: &mut [Marker]) -> ReadMap {
        match reader::read(file, list) {
            Err(refusal) => ReadMap {
                refusal,
                width: 0,
                height: 0,
                count: 0,
            },
            Ok((width, height, count)) => ReadMap {
                refusal: SUCCESS,
                width,
                height,
                count,
            },
        }
    }

    #[inline(never)]
    fn write(
        list: &[Marker],
        count: usize,
        w: usize,
        h: usize,
        clearance: u16,
        out: &mut [u8],
    ) -> WroteMap {
        match writer::write_list(list, count, w, h, clearance, out) {
            Err(refusal) => WroteMap { refusal, bytes: 0 },
            Ok(bytes) => WroteMap {
                refusal: SUCCESS,
                bytes,
            },
        }
    }

    #[inline(never)]
    fn write_sheet(sheet: &[u16], w: usize, h: usize, out: &mut [u8]) -> SheetWritten {
        match pictures::write(sheet, w, h, out) {
            Err(refusal) => SheetWritten { refusal, bytes: 0 },
            Ok(bytes) => SheetWritten {
                refusal: SUCCESS,
                bytes,
            },
        }
    }

    #[inline(never)]
    fn read_sheet(file: &[u8], sheet: &mut [u16]) -> SheetRead {
        match pictures::read(file, sheet) {
            Err(refusal) => SheetRead {
                refusal,
                width: 0,
                height: 0,
            },
            Ok((width, height)) => SheetRead {
                refusal: SUCCESS,
                width,
                height,
            },
        }
    }
}

/// Entering and clearing by block moves: the place that the search found is used, and the standard
/// library moves all later markers at once. Not the library's method; it shows what that one leaves
/// on the table.
pub struct Block;

impl Listing for Block {
    #[inline(never)]
    fn enter(
        list: &mut [Marker],
        count: usize,
        w: usize,
        h: usize,
        id: u16,
        x: usize,
        y: usize,
        height: u16,
    ) -> Counted {
        match judging::may_enter(list, count, w, h, id, x, y, height) {
            Err(refusal) => Counted { refusal, count: 0 },
            Ok((marker, place)) => Counted {
                refusal: SUCCESS,
                count: records::enter_block(list, count, marker, place),
            },
        }
    }

    #[inline(never)]
    fn clear(list: &mut [Marker], count: usize, w: usize, h: usize, id: u16) -> Counted {
        match judging::may_clear(list, count, w, h, id) {
            Err(refusal) => Counted { refusal, count: 0 },
            Ok(place) => Counted {
                refusal: SUCCESS,
                count: records::clear_block(list, count, place),
            },
        }
    }
}

/// Labelling crossing by crossing, with a stack and with notes of directions in the sheet's own
/// bytes. Not the library's method; it shows what rows of bits save.
pub struct Stack;

impl Stack {
    #[inline(never)]
    pub fn label(
        list: &[Marker],
        count: usize,
        w: usize,
        h: usize,
        clearance: u16,
        labels: &mut [u8],
    ) -> Labelling {
        match prepare(list, count, w, h, (0, 0), (0, 0), true, labels) {
            Err(refusal) => Labelling {
                refusal,
                rocks: 0,
                shut: 0,
                groups: 0,
            },
            Ok(markers) => {
                records::stamp(markers, clearance, w, labels);
                stack::label(labels, w, h)
            }
        }
    }
}

/// The number of sweeps, whichever way the stamped sheet is swept.
#[inline(always)]
fn swept(
    list: &[Marker],
    count: usize,
    w: usize,
    h: usize,
    clearance: u16,
    labels: &mut [u8],
    by: impl Fn(&mut [u8], usize, usize) -> usize,
) -> Swept {
    match prepare(list, count, w, h, (0, 0), (0, 0), true, labels) {
        Err(refusal) => Swept { refusal, sweeps: 0 },
        Ok(markers) => {
            records::stamp(markers, clearance, w, labels);
            Swept {
                refusal: SUCCESS,
                sweeps: by(labels, w, h),
            }
        }
    }
}

/// Counting sweeps by sweeping the whole map again and again. Not the library's method; it shows
/// what the queue saves.
pub struct Whole;

impl Whole {
    #[inline(never)]
    pub fn sweeps(
        list: &[Marker],
        count: usize,
        w: usize,
        h: usize,
        clearance: u16,
        labels: &mut [u8],
    ) -> Swept {
        let by = sweeping::by_whole_maps;
        swept(list, count, w, h, clearance, labels, by)
    }
}

/// Measuring, whichever way the four sheets, east, south, west and north, are worked out from the
/// labels.
#[inline(always)]
fn measured(
    list: &[Marker],
    count: usize,
    w: usize,
    h: usize,
    clearance: u16,
    labels: &mut [u8],
    sheets: [&mut [u16]; 4],
    by: impl Fn(&[u8], usize, &mut [u16], &mut [u16], &mut [u16], &mut [u16]),
) -> u8 {
    let others = sheets.iter().all(|sheet| fits(w, h, sheet.len()));
    let markers = match prepare(list, count, w, h, (0, 0), (0, 0), others, labels) {
        Ok(markers) => markers,
        Err(refusal) => {
            return refusal;
        }
    };
    labelling::label(markers, clearance, w, h, labels);
    let [east, south, west, north] = sheets;
    by(labels, w, east, south, west, north);
    SUCCESS
}

/// Measuring by looking along row and column again from each crossing. Not the library's method; it
/// shows what the running numbers save.
pub struct Looking;

impl Looking {
    #[inline(never)]
    pub fn measure(
        list: &[Marker],
        count: usize,
        w: usize,
        h: usize,
        clearance: u16,
        labels: &mut [u8],
        east: &mut [u16],
        south: &mut [u16],
        west: &mut [u16],
        north: &mut [u16],
    ) -> u8 {
        let sheets = [east, south, west, north];
        measured(
            list,
            count,
            w,
            h,
            clearance,
            labels,
            sheets,
            distances::look_from_each,
        )
    }
}
