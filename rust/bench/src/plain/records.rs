//! The lent list of marker records.
use super::limits::*;
use grainbodkin_sys::Marker;

/// Whether the list is well formed on a map of this width and height: count within its limits, ids
/// from 1 rising, every marker on the map.
pub fn well_formed(list: &[Marker], count: usize, w: usize, h: usize) -> bool {
    if count > MOST_MARKERS || count > list.len() {
        return false;
    }
    let mut last = 0;
    for m in &list[..count] {
        if m.id <= last || m.x as usize >= w || m.y as usize >= h {
            return false;
        }
        last = m.id;
    }
    true
}

/// Enters a marker at its place by id, moving the later ones up one by one from the last down.
/// Hands back the new count.
pub fn enter(list: &mut [Marker], count: usize, m: Marker) -> usize {
    let slots = &mut list[..=count];
    let mut k = count;
    while k > 0 && slots[k - 1].id >= m.id {
        slots[k] = slots[k - 1];
        k -= 1;
    }
    slots[k] = m;
    count + 1
}

/// Clears the marker with this id, which is in use, moving the later ones down one by one from the
/// last. Hands back the new count.
pub fn clear(list: &mut [Marker], count: usize, id: u16) -> usize {
    let mut above = Marker::default();
    for slot in list[..count].iter_mut().rev() {
        let m = std::mem::replace(slot, above);
        if m.id == id {
            break;
        }
        above = m;
    }
    count - 1
}

/// Enters a marker at its place by one block move.
pub fn enter_block(list: &mut [Marker], count: usize, m: Marker, place: usize) -> usize {
    list.copy_within(place..count, place + 1);
    list[place] = m;
    count + 1
}

/// Clears the marker at its place by one block move.
pub fn clear_block(list: &mut [Marker], count: usize, place: usize) -> usize {
    list.copy_within(place + 1..count, place);
    list[count - 1] = Marker::default();
    count - 1
}

/// Stamps the rocks of a cart of this clearance: 1 on each crossing with at least one marker that
/// is higher, 0 elsewhere.
pub fn stamp(markers: &[Marker], clearance: u16, w: usize, sheet: &mut [u8]) {
    sheet.fill(OPEN);
    for m in markers {
        if m.height > clearance {
            sheet[m.y as usize * w + m.x as usize] = ROCK;
        }
    }
}

/// Stamps every marker, low ones included.
pub fn stamp_all(markers: &[Marker], w: usize, sheet: &mut [u8]) {
    sheet.fill(OPEN);
    for m in markers {
        sheet[m.y as usize * w + m.x as usize] = ROCK;
    }
}
