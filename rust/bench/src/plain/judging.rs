//! Refusals that are found before anything is written, the lowest first.
use super::limits::*;
use super::records;
use grainbodkin_sys::Marker;

/// Whether width and height are within the limit.
pub fn sized(w: usize, h: usize) -> bool {
    (1..=SIDE).contains(&w) && (1..=SIDE).contains(&h)
}

/// Whether a sheet of n bytes, or of n numbers, is of the map's size.
pub fn fits(w: usize, h: usize, n: usize) -> bool {
    sized(w, h) && n == w * h
}

fn on_map(w: usize, h: usize, (x, y): Place) -> bool {
    x < w && y < h
}

/// The first part of every asking: the lowest of refusals 1 to 4, or the markers in use. `others`
/// tells whether every other lent sheet is of the map's size; `a` and `b` are the places asked.
pub fn prepare<'a>(
    list: &'a [Marker],
    count: usize,
    w: usize,
    h: usize,
    a: Place,
    b: Place,
    others: bool,
    labels: &[u8],
) -> Result<&'a [Marker], u8> {
    if !sized(w, h) {
        return Err(BAD_SIZE);
    }
    if labels.len() != w * h || !others {
        return Err(BAD_SHEET);
    }
    if !records::well_formed(list, count, w, h) {
        return Err(BAD_LIST);
    }
    if !on_map(w, h, a) || !on_map(w, h, b) {
        return Err(BAD_PLACE);
    }
    Ok(&list[..count])
}

/// Refusal 1 or 3, or where the id stands among those in use, or else where it belongs.
fn seek(
    list: &[Marker],
    count: usize,
    w: usize,
    h: usize,
    id: u16,
) -> Result<Result<usize, usize>, u8> {
    if !sized(w, h) {
        return Err(BAD_SIZE);
    }
    if !records::well_formed(list, count, w, h) {
        return Err(BAD_LIST);
    }
    Ok(list[..count].binary_search_by_key(&id, |m| m.id))
}

/// The marker to enter and its place, or refusal 1, 3, 4, 5 or 7.
pub fn may_enter(
    list: &[Marker],
    count: usize,
    w: usize,
    h: usize,
    id: u16,
    x: usize,
    y: usize,
    height: u16,
) -> Result<(Marker, usize), u8> {
    let found = seek(list, count, w, h, id)?;
    if !on_map(w, h, (x, y)) || id == 0 {
        return Err(BAD_PLACE);
    }
    let Err(place) = found else {
        return Err(ID_IN_USE);
    };
    if count >= list.len() || count >= MOST_MARKERS {
        return Err(NO_SLOT);
    }
    let marker = Marker {
        id,
        x: x as u16,
        y: y as u16,
        height,
    };
    Ok((marker, place))
}

/// Where the marker to clear stands, or refusal 1, 3 or 6.
pub fn may_clear(list: &[Marker], count: usize, w: usize, h: usize, id: u16) -> Result<usize, u8> {
    seek(list, count, w, h, id)?.map_err(|_| ID_NOT_IN_USE)
}
