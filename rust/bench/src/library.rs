//! The library's side: each call hands its slices on as pointer and length. Rust's borrows see to
//! it that what a call may write overlaps nothing else, so every `unsafe` below rests on the slices
//! alone.
use crate::layer::{Layer, Listing};
use grainbodkin_sys as sys;
use sys::{
    Assurance, Checked, Counted, CrossingLines, Drove, Four, Homeward, Labelling, Marker, ReadMap,
    SheetRead, SheetWritten, Swept, WroteMap,
};

pub struct Library;

impl Listing for Library {
    fn enter(
        list: &mut [Marker],
        count: usize,
        w: usize,
        h: usize,
        id: u16,
        x: usize,
        y: usize,
        height: u16,
    ) -> Counted {
        let (list, lent) = (list.as_mut_ptr(), list.len());
        unsafe { sys::bodkin_enter(list, lent, count, w, h, id, x, y, height) }
    }

    fn clear(list: &mut [Marker], count: usize, w: usize, h: usize, id: u16) -> Counted {
        unsafe { sys::bodkin_clear(list.as_mut_ptr(), list.len(), count, w, h, id) }
    }
}

impl Layer for Library {
    fn label(
        list: &[Marker],
        count: usize,
        w: usize,
        h: usize,
        clearance: u16,
        labels: &mut [u8],
    ) -> Labelling {
        let n = labels.len();
        unsafe {
            sys::bodkin_label(
                list.as_ptr(),
                list.len(),
                count,
                w,
                h,
                clearance,
                labels.as_mut_ptr(),
                n,
            )
        }
    }

    fn sweeps(
        list: &[Marker],
        count: usize,
        w: usize,
        h: usize,
        clearance: u16,
        labels: &mut [u8],
    ) -> Swept {
        let n = labels.len();
        unsafe {
            sys::bodkin_sweeps(
                list.as_ptr(),
                list.len(),
                count,
                w,
                h,
                clearance,
                labels.as_mut_ptr(),
                n,
            )
        }
    }

    fn distances(
        list: &[Marker],
        count: usize,
        w: usize,
        h: usize,
        clearance: u16,
        x: usize,
        y: usize,
        labels: &mut [u8],
    ) -> Four {
        let (list, lent) = (list.as_ptr(), list.len());
        let n = labels.len();
        unsafe {
            sys::bodkin_distances(
                list,
                lent,
                count,
                w,
                h,
                clearance,
                x,
                y,
                labels.as_mut_ptr(),
                n,
            )
        }
    }

    fn measure(
        list: &[Marker],
        count: usize,
        w: usize,
        h: usize,
        clearance: u16,
        labels: &mut [u8],
        east: &mut [u16],
        south: &mut [u16],
        west: &mut [u16],
        north: &mut [u16],
    ) -> u8 {
        unsafe {
            sys::bodkin_measure(
                list.as_ptr(),
                list.len(),
                count,
                w,
                h,
                clearance,
                labels.as_mut_ptr(),
                labels.len(),
                east.as_mut_ptr(),
                east.len(),
                south.as_mut_ptr(),
                south.len(),
                west.as_mut_ptr(),
                west.len(),
                north.as_mut_ptr(),
                north.len(),
            )
        }
    }

    fn assured(
        list: &[Marker],
        count: usize,
        w: usize,
        h: usize,
        clearance: u16,
        hx: usize,
        hy: usize,
        x: usize,
        y: usize,
        labels: &mut [u8],
    ) -> Assurance {
        let (list, lent) = (list.as_ptr(), list.len());
        let (labels, n) = (labels.as_mut_ptr(), labels.len());
        unsafe { sys::bodkin_assured(list, lent, count, w, h, clearance, hx, hy, x, y, labels, n) }
    }

    fn hop(
        list: &[Marker],
        count: usize,
        w: usize,
        h: usize,
        clearance: u16,
        hx: usize,
        hy: usize,
        x: usize,
        y: usize,
        labels: &mut [u8],
    ) -> Homeward {
        let (list, lent) = (list.as_ptr(), list.len());
        let (labels, n) = (labels.as_mut_ptr(), labels.len());
        unsafe { sys::bodkin_hop(list, lent, count, w, h, clearance, hx, hy, x, y, labels, n) }
    }

    fn region(
        list: &[Marker],
        count: usize,
        w: usize,
        h: usize,
        clearance: u16,
        sx: usize,
        sy: usize,
        dx: usize,
        dy: usize,
        labels: &mut [u8],
        region: &mut [u8],
    ) -> u8 {
        unsafe {
            sys::bodkin_region(
                list.as_ptr(),
                list.len(),
                count,
                w,
                h,
                clearance,
                sx,
                sy,
                dx,
                dy,
                labels.as_mut_ptr(),
                labels.len(),
                region.as_mut_ptr(),
                region.len(),
            )
        }
    }

    fn drive(
        list: &[Marker],
        count: usize,
        w: usize,
        h: usize,
        clearance: u16,
        sx: usize,
        sy: usize,
        dx: usize,
        dy: usize,
        labels: &mut [u8],
        region: &mut [u8],
        route: &mut [u16],
        state: &mut u32,
    ) -> Drove {
        unsafe {
            sys::bodkin_drive(
                list.as_ptr(),
                list.len(),
                count,
                w,
                h,
                clearance,
                sx,
                sy,
                dx,
                dy,
                labels.as_mut_ptr(),
                labels.len(),
                region.as_mut_ptr(),
                region.len(),
                route.as_mut_ptr(),
                route.len(),
                state,
            )
        }
    }

    fn check(
        list: &[Marker],
        count: usize,
        w: usize,
        h: usize,
        clearance: u16,
        sx: usize,
        sy: usize,
        dx: usize,
        dy: usize,
        labels: &mut [u8],
        drawn: &[u16],
    ) -> Checked {
        unsafe {
            sys::bodkin_check(
                list.as_ptr(),
                list.len(),
                count,
                w,
                h,
                clearance,
                sx,
                sy,
                dx,
                dy,
                labels.as_mut_ptr(),
                labels.len(),
                drawn.as_ptr(),
                drawn.len(),
            )
        }
    }

    fn lines(
        list: &[Marker],
        count: usize,
        w: usize,
        h: usize,
        clearance: u16,
        sx: usize,
        sy: usize,
        dx: usize,
        dy: usize,
        labels: &mut [u8],
    ) -> CrossingLines {
        unsafe {
            sys::bodkin_lines(
                list.as_ptr(),
                list.len(),
                count,
                w,
                h,
                clearance,
                sx,
                sy,
                dx,
                dy,
                labels.as_mut_ptr(),
                labels.len(),
            )
        }
    }

    fn lines_drive(
        list: &[Marker],
        count: usize,
        w: usize,
        h: usize,
        clearance: u16,
        sx: usize,
        sy: usize,
        dx: usize,
        dy: usize,
        labels: &mut [u8],
        region: &mut [u8],
        route: &mut [u16],
        state: &mut u32,
    ) -> Drove {
        unsafe {
            sys::bodkin_lines_drive(
                list.as_ptr(),
                list.len(),
                count,
                w,
                h,
                clearance,
                sx,
                sy,
                dx,
                dy,
                labels.as_mut_ptr(),
                labels.len(),
                region.as_mut_ptr(),
                region.len(),
                route.as_mut_ptr(),
                route.len(),
                state,
            )
        }
    }

    fn read(file: &[u8], list: &mut [Marker]) -> ReadMap {
        unsafe { sys::bodkin_read(file.as_ptr(), file.len(), list.as_mut_ptr(), list.len()) }
    }

    fn write(
        list: &[Marker],
        count: usize,
        w: usize,
        h: usize,
        clearance: u16,
        out: &mut [u8],
    ) -> WroteMap {
        let n = out.len();
        unsafe {
            sys::bodkin_write(
                list.as_ptr(),
                list.len(),
                count,
                w,
                h,
                clearance,
                out.as_mut_ptr(),
                n,
            )
        }
    }

    fn write_sheet(sheet: &[u16], w: usize, h: usize, out: &mut [u8]) -> SheetWritten {
        let n = out.len();
        unsafe { sys::bodkin_write_sheet(sheet.as_ptr(), sheet.len(), w, h, out.as_mut_ptr(), n) }
    }

    fn read_sheet(file: &[u8], sheet: &mut [u16]) -> SheetRead {
        unsafe {
            sys::bodkin_read_sheet(file.as_ptr(), file.len(), sheet.as_mut_ptr(), sheet.len())
        }
    }
}
