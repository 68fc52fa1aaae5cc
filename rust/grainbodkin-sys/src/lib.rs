//! The seventeen calls of the proved static library, as `include/grainbodkin.h` declares them. A
//! slice goes as pointer and length, which counts elements.
//!
//! A pointer is not null, even where its length is 0; it is aligned for its type and points to as
//! many elements as its length says; what a call may write overlaps nothing else that is lent to
//! the same call; and there is room on the stack, [`STACK`] bytes below the caller. For every other
//! value of every parameter a call answers, by its refusal or its success. The crate `grainbodkin`
//! has the same calls without `unsafe`.
#![no_std]

/// The most bytes of stack that a call is held to below its caller, as the header's `BODKIN_STACK`.
pub const STACK: usize = 136_192;

/// A rock marker: an id, 1 to 65,535, a crossing, and a height in centimetres. It makes its crossing
/// a rock for a cart exactly if its height is greater than the cart's clearance.
#[repr(C)]
#[derive(Clone, Copy, Debug, Default, PartialEq, Eq, Hash)]
pub struct Marker {
    pub id: u16,
    pub x: u16,
    pub y: u16,
    pub height: u16,
}

/// The new count of a list, or the refusal.
#[repr(C)]
#[derive(Clone, Copy, Debug, PartialEq, Eq)]
pub struct Counted {
    pub refusal: u8,
    pub count: usize,
}

/// The numbers of rocks' crossings, shut crossings and groups, or the refusal.
#[repr(C)]
#[derive(Clone, Copy, Debug, PartialEq, Eq)]
pub struct Labelling {
    pub refusal: u8,
    pub rocks: usize,
    pub shut: usize,
    pub groups: usize,
}

/// The number of sweeps that changed something, or the refusal.
#[repr(C)]
#[derive(Clone, Copy, Debug, PartialEq, Eq)]
pub struct Swept {
    pub refusal: u8,
    pub sweeps: usize,
}

/// The four distances of a crossing, east, south, west, north, or the refusal.
#[repr(C)]
#[derive(Clone, Copy, Debug, PartialEq, Eq)]
pub struct Four {
    pub refusal: u8,
    pub four: [u16; 4],
}

/// Whether home is assured, or the refusal.
#[repr(C)]
#[derive(Clone, Copy, Debug, PartialEq, Eq)]
pub struct Assurance {
    pub refusal: u8,
    pub assured: bool,
}

/// How many hops homeward are permitted, none at home, and where they lead, the east-west one
/// first; or the refusal.
#[repr(C)]
#[derive(Clone, Copy, Debug, PartialEq, Eq)]
pub struct Homeward {
    pub refusal: u8,
    pub hops: u8,
    pub x: usize,
    pub y: usize,
    pub a: usize,
    pub b: usize,
}

/// How many crossings of the route were filled, or the refusal.
#[repr(C)]
#[derive(Clone, Copy, Debug, PartialEq, Eq)]
pub struct Drove {
    pub refusal: u8,
    pub length: usize,
}

/// What is found of a drawn list: the reason and the position of the first fault, both 0 for an
/// accepted list; or the refusal.
#[repr(C)]
#[derive(Clone, Copy, Debug, PartialEq, Eq)]
pub struct Checked {
    pub refusal: u8,
    pub reason: u8,
    pub position: usize,
}

/// Whether two places have crossing lines, and if so the westmost column and the southmost row;
/// zeros beside a no; or the refusal.
#[repr(C)]
#[derive(Clone, Copy, Debug, PartialEq, Eq)]
pub struct CrossingLines {
    pub refusal: u8,
    pub yes: bool,
    pub column: usize,
    pub row: usize,
}

/// Width, height and number of markers of a map that was read, or the refusal.
#[repr(C)]
#[derive(Clone, Copy, Debug, PartialEq, Eq)]
pub struct ReadMap {
    pub refusal: u8,
    pub width: usize,
    pub height: usize,
    pub count: usize,
}

/// How many bytes were written, or the refusal.
#[repr(C)]
#[derive(Clone, Copy, Debug, PartialEq, Eq)]
pub struct WroteMap {
    pub refusal: u8,
    pub bytes: usize,
}

/// How many bytes of a picture were written, or the refusal.
#[repr(C)]
#[derive(Clone, Copy, Debug, PartialEq, Eq)]
pub struct SheetWritten {
    pub refusal: u8,
    pub bytes: usize,
}

/// Width and height of a picture that was read, or the refusal.
#[repr(C)]
#[derive(Clone, Copy, Debug, PartialEq, Eq)]
pub struct SheetRead {
    pub refusal: u8,
    pub width: usize,
    pub height: usize,
}

extern "C" {
    pub fn bodkin_enter(
        list: *mut Marker,
        lent: usize,
        count: usize,
        width: usize,
        height: usize,
        id: u16,
        x: usize,
        y: usize,
        marker_height: u16,
    ) -> Counted;

    pub fn bodkin_clear(
        list: *mut Marker,
        lent: usize,
        count: usize,
        width: usize,
        height: usize,
        id: u16,
    ) -> Counted;

    pub fn bodkin_label(
        list: *const Marker,
        lent: usize,
        count: usize,
        width: usize,
        height: usize,
        clearance: u16,
        labels: *mut u8,
        labels_len: usize,
    ) -> Labelling;

    pub fn bodkin_sweeps(
        list: *const Marker,
        lent: usize,
        count: usize,
        width: usize,
        height: usize,
        clearance: u16,
        labels: *mut u8,
        labels_len: usize,
    ) -> Swept;

    pub fn bodkin_distances(
        list: *const Marker,
        lent: usize,
        count: usize,
        width: usize,
        height: usize,
        clearance: u16,
        x: usize,
        y: usize,
        labels: *mut u8,
        labels_len: usize,
    ) -> Four;

    pub fn bodkin_measure(
        list: *const Marker,
        lent: usize,
        count: usize,
        width: usize,
        height: usize,
        clearance: u16,
        labels: *mut u8,
        labels_len: usize,
        east: *mut u16,
        east_len: usize,
        south: *mut u16,
        south_len: usize,
        west: *mut u16,
        west_len: usize,
        north: *mut u16,
        north_len: usize,
    ) -> u8;

    pub fn bodkin_assured(
        list: *const Marker,
        lent: usize,
        count: usize,
        width: usize,
        height: usize,
        clearance: u16,
        hx: usize,
        hy: usize,
        x: usize,
        y: usize,
        labels: *mut u8,
        labels_len: usize,
    ) -> Assurance;

    pub fn bodkin_hop(
        list: *const Marker,
        lent: usize,
        count: usize,
        width: usize,
        height: usize,
        clearance: u16,
        hx: usize,
        hy: usize,
        x: usize,
        y: usize,
        labels: *mut u8,
        labels_len: usize,
    ) -> Homeward;

    pub fn bodkin_region(
        list: *const Marker,
        lent: usize,
        count: usize,
        width: usize,
        height: usize,
        clearance: u16,
        sx: usize,
        sy: usize,
        dx: usize,
        dy: usize,
        labels: *mut u8,
        labels_len: usize,
        region: *mut u8,
        region_len: usize,
    ) -> u8;

    pub fn bodkin_drive(
        list: *const Marker,
        lent: usize,
        count: usize,
        width: usize,
        height: usize,
        clearance: u16,
        sx: usize,
        sy: usize,
        dx: usize,
        dy: usize,
        labels: *mut u8,
        labels_len: usize,
        region: *mut u8,
        region_len: usize,
        route: *mut u16,
        route_len: usize,
        state: *mut u32,
    ) -> Drove;

    pub fn bodkin_check(
        list: *const Marker,
        lent: usize,
        count: usize,
        width: usize,
        height: usize,
        clearance: u16,
        sx: usize,
        sy: usize,
        dx: usize,
        dy: usize,
        labels: *mut u8,
        labels_len: usize,
        drawn: *const u16,
        drawn_len: usize,
    ) -> Checked;

    pub fn bodkin_lines(
        list: *const Marker,
        lent: usize,
        count: usize,
        width: usize,
        height: usize,
        clearance: u16,
        sx: usize,
        sy: usize,
        dx: usize,
        dy: usize,
        labels: *mut u8,
        labels_len: usize,
    ) -> CrossingLines;

    pub fn bodkin_lines_drive(
        list: *const Marker,
        lent: usize,
        count: usize,
        width: usize,
        height: usize,
        clearance: u16,
        sx: usize,
        sy: usize,
        dx: usize,
        dy: usize,
        labels: *mut u8,
        labels_len: usize,
        region: *mut u8,
        region_len: usize,
        route: *mut u16,
        route_len: usize,
        state: *mut u32,
    ) -> Drove;

    pub fn bodkin_read(file: *const u8, file_len: usize, list: *mut Marker, lent: usize)
        -> ReadMap;

    pub fn bodkin_write(
        list: *const Marker,
        lent: usize,
        count: usize,
        width: usize,
        height: usize,
        clearance: u16,
        out: *mut u8,
        out_len: usize,
    ) -> WroteMap;

    pub fn bodkin_write_sheet(
        sheet: *const u16,
        sheet_len: usize,
        width: usize,
        height: usize,
        out: *mut u8,
        out_len: usize,
    ) -> SheetWritten;

    pub fn bodkin_read_sheet(
        file: *const u8,
        file_len: usize,
        sheet: *mut u16,
        sheet_len: usize,
    ) -> SheetRead;
}
