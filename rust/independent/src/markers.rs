//! "The map and the markers", second part: the marker list, entering and clearing.
use crate::map::{Crossing, Map};
use crate::refusals::{first_that_applies, DONE};

/// At most so many markers are in use.
pub const MOST: usize = 8192;

/// The greatest height, and the greatest clearance.
pub const TALLEST: u16 = 65_535;

/// A marker: an id, 1 to 65,535, a crossing, and "a height in centimetres, 0 to 65,535" (Req 08).
#[derive(Clone, Copy, Debug, Default, PartialEq, Eq)]
pub struct Marker {
    pub id: u16,
    pub x: u16,
    pub y: u16,
    pub height: u16,
}

impl Marker {
    pub fn crossing(self) -> Crossing {
        Crossing::new(usize::from(self.x), usize::from(self.y))
    }

    /// "A marker makes its crossing a rock for that cart exactly if its height is greater than the
    /// clearance" (Req 08).
    pub fn stops(self, clearance: u16) -> bool {
        self.height > clearance
    }
}

/// What entering and clearing leave.
#[derive(Clone, Debug, PartialEq, Eq)]
pub struct Counted {
    pub refusal: u8,
    pub count: usize,
    pub list: Vec<Marker>,
}

/// Refusal 3: count over the limit or over the list lent, an id 0, ids not rising, or a marker off
/// the map.
pub fn bad_list(map: Map, list: &[Marker], count: usize) -> bool {
    if count > MOST || count > list.len() {
        return true;
    }
    let used = &list[..count];
    let id_0 = used.iter().any(|m| m.id == 0);
    let not_rising = used.windows(2).any(|pair| pair[0].id >= pair[1].id);
    let off_map = used.iter().any(|m| !map.has(m.crossing()));
    id_0 || not_rising || off_map
}

fn in_use(list: &[Marker], count: usize, id: u16) -> bool {
    list[..count].iter().any(|m| m.id == id)
}

/// Enters a marker of any height: the ones in use with it, sorted by id, fill the first slots.
pub fn enter(
    list: &[Marker],
    count: usize,
    map: Map,
    id: u16,
    (x, y): (usize, usize),
    height: u16,
) -> Counted {
    let refusal = first_that_applies(&[
        (1, &|| map.bad_size()),
        (3, &|| bad_list(map, list, count)),
        (4, &|| id == 0 || !map.has(Crossing::new(x, y))),
        (5, &|| in_use(list, count, id)),
        (7, &|| count + 1 > list.len() || count + 1 > MOST),
    ]);
    if refusal != DONE {
        return refused(refusal, list);
    }
    let mut used = list[..count].to_vec();
    used.push(Marker {
        id,
        x: x as u16,
        y: y as u16,
        height,
    });
    used.sort_by_key(|m| m.id);
    let mut after = list.to_vec();
    after[..count + 1].copy_from_slice(&used);
    Counted {
        refusal,
        count: count + 1,
        list: after,
    }
}

/// Clears a marker: the others fill the first slots, and the one slot so freed is zeros.
pub fn clear(list: &[Marker], count: usize, map: Map, id: u16) -> Counted {
    let refusal = first_that_applies(&[
        (1, &|| map.bad_size()),
        (3, &|| bad_list(map, list, count)),
        (6, &|| !in_use(list, count, id)),
    ]);
    if refusal != DONE {
        return refused(refusal, list);
    }
    let mut used = list[..count].to_vec();
    used.retain(|m| m.id != id);
    let mut after = list.to_vec();
    after[..count - 1].copy_from_slice(&used);
    after[count - 1] = Marker::default();
    Counted {
        refusal,
        count: count - 1,
        list: after,
    }
}

fn refused(refusal: u8, list: &[Marker]) -> Counted {
    Counted {
        refusal,
        count: 0,
        list: list.to_vec(),
    }
}
