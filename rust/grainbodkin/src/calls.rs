//! The seventeen calls of the static library, lent slices in place of pointers and lengths. All of
//! the crate's `unsafe` is here.
//!
//! The library asks five things of its caller; for all else it answers or refuses. Four hold for
//! every slice and every `&mut`:
//! - a pointer is not null, even where its length is 0: a slice's pointer never is;
//! - it is aligned and points to so many elements: pointer and length come from one slice, which is
//!   lent until the call ends;
//! - what a call may write overlaps nothing else lent to it: it is lent by `&mut`, and the rest by
//!   other references;
//! - each element is a value of its type: every `u8`, `u16`, `u32` and `Marker` is one, in and out.
//!
//! The fifth no type can hold: there is room on the stack, [`STACK`](crate::STACK) bytes below the
//! caller (docs/INTEGRATORS.md has each call's). The library takes a large frame page by page and
//! touches each, so that a thread without the room meets its guard page, and the process ends
//! before other memory is written.
//!
//! The library keeps no pointer past a call and has no memory of its own, so calls from several
//! threads do not meet.

use std::mem::{align_of, offset_of, size_of};

use grainbodkin_sys as sys;

use crate::{Marker, MarkersMut, MarkersRef, Place};

// A `Marker` is laid out as the library's marker, so a slice of the one is a slice of the other.
const _: () = {
    assert!(size_of::<Marker>() == size_of::<sys::Marker>());
    assert!(align_of::<Marker>() == align_of::<sys::Marker>());
    assert!(offset_of!(Marker, id) == offset_of!(sys::Marker, id));
    assert!(offset_of!(Marker, x) == offset_of!(sys::Marker, x));
    assert!(offset_of!(Marker, y) == offset_of!(sys::Marker, y));
    assert!(offset_of!(Marker, height) == offset_of!(sys::Marker, height));
};

fn pointer(slots: &[Marker]) -> *const sys::Marker {
    slots.as_ptr().cast()
}

fn pointer_mut(slots: &mut [Marker]) -> *mut sys::Marker {
    slots.as_mut_ptr().cast()
}

pub(crate) fn enter(list: &mut MarkersMut<'_>, id: u16, place: Place, height: u16) -> sys::Counted {
    // SAFETY: pointer and length are those of `slots`, which is lent by `&mut`; nothing else is
    // lent.
    unsafe {
        sys::bodkin_enter(
            pointer_mut(list.slots),
            list.slots.len(),
            list.count,
            list.width,
            list.height,
            id,
            place.x,
            place.y,
            height,
        )
    }
}

pub(crate) fn clear(list: &mut MarkersMut<'_>, id: u16) -> sys::Counted {
    // SAFETY: pointer and length are those of `slots`, which is lent by `&mut`; nothing else is
    // lent.
    unsafe {
        sys::bodkin_clear(
            pointer_mut(list.slots),
            list.slots.len(),
            list.count,
            list.width,
            list.height,
            id,
        )
    }
}

pub(crate) fn label(list: MarkersRef<'_>, labels: &mut [u8]) -> sys::Labelling {
    // SAFETY: each pointer stands before its own slice's length. Only `labels` is written, and it
    // is lent by `&mut`.
    unsafe {
        sys::bodkin_label(
            pointer(list.slots),
            list.slots.len(),
            list.count,
            list.width,
            list.height,
            list.cart.clearance,
            labels.as_mut_ptr(),
            labels.len(),
        )
    }
}

pub(crate) fn sweeps(list: MarkersRef<'_>, labels: &mut [u8]) -> sys::Swept {
    // SAFETY: each pointer stands before its own slice's length. Only `labels` is written, and it
    // is lent by `&mut`.
    unsafe {
        sys::bodkin_sweeps(
            pointer(list.slots),
            list.slots.len(),
            list.count,
            list.width,
            list.height,
            list.cart.clearance,
            labels.as_mut_ptr(),
            labels.len(),
        )
    }
}

pub(crate) fn distances(list: MarkersRef<'_>, place: Place, labels: &mut [u8]) -> sys::Four {
    // SAFETY: each pointer stands before its own slice's length. Only `labels` is written, and it
    // is lent by `&mut`.
    unsafe {
        sys::bodkin_distances(
            pointer(list.slots),
            list.slots.len(),
            list.count,
            list.width,
            list.height,
            list.cart.clearance,
            place.x,
            place.y,
            labels.as_mut_ptr(),
            labels.len(),
        )
    }
}

pub(crate) fn measure(list: MarkersRef<'_>, labels: &mut [u8], sheets: [&mut [u16]; 4]) -> u8 {
    let [east, south, west, north] = sheets;
    // SAFETY: each pointer stands before its own slice's length. The five sheets that are written
    // are lent by `&mut` each, so they overlap neither one another nor the list.
    unsafe {
        sys::bodkin_measure(
            pointer(list.slots),
            list.slots.len(),
            list.count,
            list.width,
            list.height,
            list.cart.clearance,
            labels.as_mut_ptr(),
            labels.len(),
            east.as_mut_ptr(),
            east.len(),
            south.as_mut_ptr(),
            south.len(),
            west.as_mut_ptr(),
            west.len(),
            north.as_mut_ptr(),
            north.len(),
        )
    }
}

pub(crate) fn assured(
    list: MarkersRef<'_>,
    home: Place,
    place: Place,
    labels: &mut [u8],
) -> sys::Assurance {
    // SAFETY: each pointer stands before its own slice's length. Only `labels` is written, and it
    // is lent by `&mut`.
    unsafe {
        sys::bodkin_assured(
            pointer(list.slots),
            list.slots.len(),
            list.count,
            list.width,
            list.height,
            list.cart.clearance,
            home.x,
            home.y,
            place.x,
            place.y,
            labels.as_mut_ptr(),
            labels.len(),
        )
    }
}

pub(crate) fn hop(
    list: MarkersRef<'_>,
    home: Place,
    place: Place,
    labels: &mut [u8],
) -> sys::Homeward {
    // SAFETY: each pointer stands before its own slice's length. Only `labels` is written, and it
    // is lent by `&mut`.
    unsafe {
        sys::bodkin_hop(
            pointer(list.slots),
            list.slots.len(),
            list.count,
            list.width,
            list.height,
            list.cart.clearance,
            home.x,
            home.y,
            place.x,
            place.y,
            labels.as_mut_ptr(),
            labels.len(),
        )
    }
}

pub(crate) fn region(
    list: MarkersRef<'_>,
    s: Place,
    d: Place,
    labels: &mut [u8],
    region: &mut [u8],
) -> u8 {
    // SAFETY: each pointer stands before its own slice's length. The two sheets that are written
    // are lent by `&mut` each.
    unsafe {
        sys::bodkin_region(
            pointer(list.slots),
            list.slots.len(),
            list.count,
            list.width,
            list.height,
            list.cart.clearance,
            s.x,
            s.y,
            d.x,
            d.y,
            labels.as_mut_ptr(),
            labels.len(),
            region.as_mut_ptr(),
            region.len(),
        )
    }
}

pub(crate) fn drive(
    list: MarkersRef<'_>,
    s: Place,
    d: Place,
    labels: &mut [u8],
    region: &mut [u8],
    route: &mut [u16],
    state: &mut u32,
) -> sys::Drove {
    // SAFETY: each pointer stands before its own slice's length, and `state` is one number. The
    // sheets, the route and the state, which are written, are lent by `&mut` each.
    unsafe {
        sys::bodkin_drive(
            pointer(list.slots),
            list.slots.len(),
            list.count,
            list.width,
            list.height,
            list.cart.clearance,
            s.x,
            s.y,
            d.x,
            d.y,
            labels.as_mut_ptr(),
            labels.len(),
            region.as_mut_ptr(),
            region.len(),
            route.as_mut_ptr(),
            route.len(),
            state,
        )
    }
}

pub(crate) fn check(
    list: MarkersRef<'_>,
    s: Place,
    d: Place,
    labels: &mut [u8],
    drawn: &[u16],
) -> sys::Checked {
    // SAFETY: each pointer stands before its own slice's length. Only `labels` is written, and it
    // is lent by `&mut`.
    unsafe {
        sys::bodkin_check(
            pointer(list.slots),
            list.slots.len(),
            list.count,
            list.width,
            list.height,
            list.cart.clearance,
            s.x,
            s.y,
            d.x,
            d.y,
            labels.as_mut_ptr(),
            labels.len(),
            drawn.as_ptr(),
            drawn.len(),
        )
    }
}

pub(crate) fn lines(
    list: MarkersRef<'_>,
    s: Place,
    d: Place,
    labels: &mut [u8],
) -> sys::CrossingLines {
    // SAFETY: each pointer stands before its own slice's length. Only `labels` is written, and it
    // is lent by `&mut`.
    unsafe {
        sys::bodkin_lines(
            pointer(list.slots),
            list.slots.len(),
            list.count,
            list.width,
            list.height,
            list.cart.clearance,
            s.x,
            s.y,
            d.x,
            d.y,
            labels.as_mut_ptr(),
            labels.len(),
        )
    }
}

pub(crate) fn lines_drive(
    list: MarkersRef<'_>,
    s: Place,
    d: Place,
    labels: &mut [u8],
    region: &mut [u8],
    route: &mut [u16],
    state: &mut u32,
) -> sys::Drove {
    // SAFETY: each pointer stands before its own slice's length, and `state` is one number. The
    // sheets, the route and the state, which are written, are lent by `&mut` each.
    unsafe {
        sys::bodkin_lines_drive(
            pointer(list.slots),
            list.slots.len(),
            list.count,
            list.width,
            list.height,
            list.cart.clearance,
            s.x,
            s.y,
            d.x,
            d.y,
            labels.as_mut_ptr(),
            labels.len(),
            region.as_mut_ptr(),
            region.len(),
            route.as_mut_ptr(),
            route.len(),
            state,
        )
    }
}

pub(crate) fn read(file: &[u8], slots: &mut [Marker]) -> sys::ReadMap {
    // SAFETY: each pointer stands before its own slice's length. Only `slots` is written, and it is
    // lent by `&mut`.
    unsafe { sys::bodkin_read(file.as_ptr(), file.len(), pointer_mut(slots), slots.len()) }
}

pub(crate) fn write(list: MarkersRef<'_>, out: &mut [u8]) -> sys::WroteMap {
    // SAFETY: each pointer stands before its own slice's length. Only `out` is written, and it is
    // lent by `&mut`.
    unsafe {
        sys::bodkin_write(
            pointer(list.slots),
            list.slots.len(),
            list.count,
            list.width,
            list.height,
            list.cart.clearance,
            out.as_mut_ptr(),
            out.len(),
        )
    }
}

pub(crate) fn write_sheet(
    sheet: &[u16],
    width: usize,
    height: usize,
    out: &mut [u8],
) -> sys::SheetWritten {
    // SAFETY: each pointer stands before its own slice's length. Only `out` is written, and it is
    // lent by `&mut`.
    unsafe {
        sys::bodkin_write_sheet(
            sheet.as_ptr(),
            sheet.len(),
            width,
            height,
            out.as_mut_ptr(),
            out.len(),
        )
    }
}

pub(crate) fn read_sheet(file: &[u8], sheet: &mut [u16]) -> sys::SheetRead {
    // SAFETY: each pointer stands before its own slice's length. Only `sheet` is written, and it is
    // lent by `&mut`.
    unsafe { sys::bodkin_read_sheet(file.as_ptr(), file.len(), sheet.as_mut_ptr(), sheet.len()) }
}
