//! The seventeen calls as both sides have them: over lent slices, with the answers of
//! `grainbodkin-sys`.
use grainbodkin_sys::{
    Assurance, Checked, Counted, CrossingLines, Drove, Four, Homeward, Labelling, Marker, ReadMap,
    SheetRead, SheetWritten, Swept, WroteMap,
};

/// The two calls that change the list.
pub trait Listing {
    fn enter(
        list: &mut [Marker],
        count: usize,
        w: usize,
        h: usize,
        id: u16,
        x: usize,
        y: usize,
        height: u16,
    ) -> Counted;

    fn clear(list: &mut [Marker], count: usize, w: usize, h: usize, id: u16) -> Counted;
}

/// All seventeen.
pub trait Layer: Listing {
    fn label(
        list: &[Marker],
        count: usize,
        w: usize,
        h: usize,
        clearance: u16,
        labels: &mut [u8],
    ) -> Labelling;

    fn sweeps(
        list: &[Marker],
        count: usize,
        w: usize,
        h: usize,
        clearance: u16,
        labels: &mut [u8],
    ) -> Swept;

    fn distances(
        list: &[Marker],
        count: usize,
        w: usize,
        h: usize,
        clearance: u16,
        x: usize,
        y: usize,
        labels: &mut [u8],
    ) -> Four;

    fn measure(
        list: &[Marker],
        count: usize,
        w: usize,
        h: usize,
        clearance: u16,
        labels: &mut [u8],
        east: &mut [u16],
        south: &mut [u16],
        west: &mut [u16],
        north: &mut [u16],
    ) -> u8;

    fn assured(
        list: &[Marker],
        count: usize,
        w: usize,
        h: usize,
        clearance: u16,
        hx: usize,
        hy: usize,
        x: usize,
        y: usize,
        labels: &mut [u8],
    ) -> Assurance;

    fn hop(
        list: &[Marker],
        count: usize,
        w: usize,
        h: usize,
        clearance: u16,
        hx: usize,
        hy: usize,
        x: usize,
        y: usize,
        labels: &mut [u8],
    ) -> Homeward;

    fn region(
        list: &[Marker],
        count: usize,
        w: usize,
        h: usize,
        clearance: u16,
        sx: usize,
        sy: usize,
        dx: usize,
        dy: usize,
        labels: &mut [u8],
        region: &mut [u8],
    ) -> u8;

    fn drive(
        list: &[Marker],
        count: usize,
        w: usize,
        h: usize,
        clearance: u16,
        sx: usize,
        sy: usize,
        dx: usize,
        dy: usize,
        labels: &mut [u8],
        region: &mut [u8],
        route: &mut [u16],
        state: &mut u32,
    ) -> Drove;

    fn check(
        list: &[Marker],
        count: usize,
        w: usize,
        h: usize,
        clearance: u16,
        sx: usize,
        sy: usize,
        dx: usize,
        dy: usize,
        labels: &mut [u8],
        drawn: &[u16],
    ) -> Checked;

    fn lines(
        list: &[Marker],
        count: usize,
        w: usize,
        h: usize,
        clearance: u16,
        sx: usize,
        sy: usize,
        dx: usize,
        dy: usize,
        labels: &mut [u8],
    ) -> CrossingLines;

    fn lines_drive(
        list: &[Marker],
        count: usize,
        w: usize,
        h: usize,
        clearance: u16,
        sx: usize,
        sy: usize,
        dx: usize,
        dy: usize,
        labels: &mut [u8],
        region: &mut [u8],
        route: &mut [u16],
        state: &mut u32,
    ) -> Drove;

    fn read(file: &[u8], list: &mut [Marker]) -> ReadMap;

    fn write(
        list: &[Marker],
        count: usize,
        w: usize,
        h: usize,
        clearance: u16,
        out: &mut [u8],
    ) -> WroteMap;

    fn write_sheet(sheet: &[u16], w: usize, h: usize, out: &mut [u8]) -> SheetWritten;

    fn read_sheet(file: &[u8], sheet: &mut [u16]) -> SheetRead;
}
