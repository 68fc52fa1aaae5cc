//! The memory that is lent to the calls.
use crate::input::Input;
use grainbodkin_sys::Marker;

/// So many calls of entering or clearing go by before the window is set back.
const REACH: usize = 4096;

/// Sheets, route, output and slots.
#[derive(Clone, Debug, PartialEq, Eq)]
pub struct Room {
    pub labels: Vec<u8>,
    pub region: Vec<u8>,
    pub east: Vec<u16>,
    pub south: Vec<u16>,
    pub west: Vec<u16>,
    pub north: Vec<u16>,
    pub route: Vec<u16>,
    pub state: u32,
    pub out: Vec<u8>,
    /// Slots for a map that is read.
    pub slots: Vec<Marker>,
}

impl Room {
    /// Room for a map's calls. Nothing in it is 0, so that a byte left out shows.
    pub fn new(input: &Input) -> Room {
        let size = input.side * input.side;
        let stale = Marker {
            id: 9,
            x: 9,
            y: 9,
            height: 9,
        };
        Room {
            labels: vec![9; size],
            region: vec![9; size],
            east: vec![9; size],
            south: vec![9; size],
            west: vec![9; size],
            north: vec![9; size],
            route: vec![9; 2 * input.side],
            state: 9,
            out: vec![9; input.packed.len().max(input.picture.len()) + 1],
            slots: vec![stale; input.list.len() + 1],
        }
    }
}

/// A list in a longer run of slots. Entering before all others moves every marker up by one, so the
/// same list stands one slot higher again; clearing the first moves every other one down, so the
/// same list stands one slot lower again once its first marker is put back there. So a call may be
/// made again and again over the same list, and hardly anything is done between two calls.
#[derive(Clone, Debug, PartialEq, Eq)]
pub struct Window {
    slots: Vec<Marker>,
    from: usize,
    list: Vec<Marker>,
}

impl Window {
    /// The map's list without its first marker, and a slot for that.
    pub fn to_enter(input: &Input) -> Window {
        let mut window = Window::of(&input.list);
        window.slots[..input.list.len() - 1].copy_from_slice(&input.list[1..]);
        window
    }

    /// The map's list.
    pub fn to_clear(input: &Input) -> Window {
        let mut window = Window::of(&input.list);
        window.put_back();
        window
    }

    fn of(list: &[Marker]) -> Window {
        Window {
            slots: vec![Marker::default(); list.len() + REACH],
            from: 0,
            list: list.to_vec(),
        }
    }

    /// The slots lent: as many as the map's list has markers.
    pub fn lent(&mut self) -> &mut [Marker] {
        &mut self.slots[self.from..][..self.list.len()]
    }

    /// The same list again after its first marker was entered.
    pub fn entered(&mut self) {
        self.from += 1;
        if self.from == REACH {
            let n = self.list.len();
            self.slots.copy_within(REACH..REACH + n - 1, 0);
            self.from = 0;
        }
    }

    /// The same list again after its first marker was cleared.
    pub fn cleared(&mut self) {
        if self.from == 0 {
            self.put_back();
        } else {
            self.from -= 1;
            self.slots[self.from] = self.list[0];
        }
    }

    /// The whole list at the upper end of the run.
    fn put_back(&mut self) {
        self.from = REACH;
        self.slots[REACH..].copy_from_slice(&self.list);
    }
}
