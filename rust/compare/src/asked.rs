//! A map, its stones and a cart, as the library is asked about them.
use crate::random::Random;
use crate::stones::HEIGHTS;
use grainbodkin_sys::{self as sys, Marker};
use independent::map::{Crossing, Map};
use independent::markers::MOST;

/// The list, the cart, and the label sheet that is lent.
#[derive(Clone)]
pub struct Asked {
    pub map: Map,
    pub clearance: u16,
    pub list: Vec<Marker>,
    pub labels: Vec<u8>,
}

impl Asked {
    /// Stones on these crossings, of heights about the clearance.
    pub fn new(random: &mut Random, map: Map, clearance: u16, rocks: &[Crossing]) -> Asked {
        let (_, height) = random.by_weight(&HEIGHTS);
        let marker = |(i, c): (usize, &Crossing)| Marker {
            id: i as u16 + 1,
            x: c.x as u16,
            y: c.y as u16,
            height: height(random, clearance),
        };
        Asked {
            map,
            clearance,
            list: rocks.iter().enumerate().take(MOST).map(marker).collect(),
            labels: vec![0; map.width * map.height],
        }
    }

    /// The same list, asked for another cart.
    pub fn for_cart(&self, clearance: u16) -> Asked {
        Asked {
            clearance,
            ..self.clone()
        }
    }

    pub fn open(&self, c: Crossing) -> bool {
        self.labels[self.map.number(c)] == 0
    }

    /// Whether a stone stands on a crossing.
    pub fn stone(&self, c: Crossing) -> bool {
        let on = |m: &Marker| (usize::from(m.x), usize::from(m.y)) == (c.x, c.y);
        self.list.iter().any(on)
    }

    // SAFETY, of each call below: every pointer comes from a buffer of its own and stands before
    // that buffer's length; no two buffers overlap.

    pub fn label(&mut self) -> sys::Labelling {
        let (w, h, n) = (self.map.width, self.map.height, self.list.len());
        let (list, cart, size) = (self.list.as_ptr(), self.clearance, self.labels.len());
        let labels = self.labels.as_mut_ptr();
        unsafe { sys::bodkin_label(list, n, n, w, h, cart, labels, size) }
    }

    pub fn four(&mut self, c: Crossing) -> [usize; 4] {
        let (w, h, n) = (self.map.width, self.map.height, self.list.len());
        let (list, cart, size) = (self.list.as_ptr(), self.clearance, self.labels.len());
        let labels = self.labels.as_mut_ptr();
        unsafe { sys::bodkin_distances(list, n, n, w, h, cart, c.x, c.y, labels, size) }
            .four
            .map(usize::from)
    }

    /// The four sheets, one after another.
    pub fn measure(&mut self) -> Vec<u16> {
        let (w, h, n) = (self.map.width, self.map.height, self.list.len());
        let (list, cart, size) = (self.list.as_ptr(), self.clearance, self.labels.len());
        let labels = self.labels.as_mut_ptr();
        let mut sheets = vec![0; 4 * size];
        let mut parts = sheets.chunks_mut(size).map(<[u16]>::as_mut_ptr);
        let [east, south, west, north] = [(); 4].map(|()| parts.next().expect("four sheets"));
        unsafe {
            sys::bodkin_measure(
                list, n, n, w, h, cart, labels, size, east, size, south, size, west, size, north,
                size,
            )
        };
        sheets
    }

    pub fn assured(&mut self, home: Crossing, place: Crossing) -> bool {
        let (w, h, n) = (self.map.width, self.map.height, self.list.len());
        let (list, cart, size) = (self.list.as_ptr(), self.clearance, self.labels.len());
        let labels = self.labels.as_mut_ptr();
        unsafe {
            sys::bodkin_assured(
                list, n, n, w, h, cart, home.x, home.y, place.x, place.y, labels, size,
            )
        }
        .assured
    }

    /// Every hop that the answer names; none at home or at a refusal.
    pub fn hops(&mut self, home: Crossing, place: Crossing) -> Vec<Crossing> {
        let (w, h, n) = (self.map.width, self.map.height, self.list.len());
        let (list, cart, size) = (self.list.as_ptr(), self.clearance, self.labels.len());
        let labels = self.labels.as_mut_ptr();
        let after = unsafe {
            sys::bodkin_hop(
                list, n, n, w, h, cart, home.x, home.y, place.x, place.y, labels, size,
            )
        };
        let both = [
            Crossing::new(after.x, after.y),
            Crossing::new(after.a, after.b),
        ];
        both[..usize::from(after.hops)].to_vec()
    }

    pub fn lines(&mut self, s: Crossing, d: Crossing) -> bool {
        let (w, h, n) = (self.map.width, self.map.height, self.list.len());
        let (list, cart, size) = (self.list.as_ptr(), self.clearance, self.labels.len());
        let labels = self.labels.as_mut_ptr();
        unsafe { sys::bodkin_lines(list, n, n, w, h, cart, s.x, s.y, d.x, d.y, labels, size) }.yes
    }

    /// The refusal, 0 where there is a shortest drive, and the region sheet.
    pub fn region(&mut self, s: Crossing, d: Crossing) -> (u8, Vec<u8>) {
        let (w, h, n) = (self.map.width, self.map.height, self.list.len());
        let (list, cart, size) = (self.list.as_ptr(), self.clearance, self.labels.len());
        let labels = self.labels.as_mut_ptr();
        let mut sheet = vec![0; size];
        let region = sheet.as_mut_ptr();
        let refusal = unsafe {
            sys::bodkin_region(
                list, n, n, w, h, cart, s.x, s.y, d.x, d.y, labels, size, region, size,
            )
        };
        (refusal, sheet)
    }

    /// The drive from a state, empty at a refusal.
    pub fn drive(&mut self, s: Crossing, d: Crossing, mut state: u32) -> Vec<u16> {
        let (w, h, n) = (self.map.width, self.map.height, self.list.len());
        let (list, cart, size) = (self.list.as_ptr(), self.clearance, self.labels.len());
        let labels = self.labels.as_mut_ptr();
        let (mut sheet, mut numbers) = (vec![0; size], vec![0; w + h]);
        let (region, route) = (sheet.as_mut_ptr(), numbers.as_mut_ptr());
        let drove = unsafe {
            sys::bodkin_drive(
                list,
                n,
                n,
                w,
                h,
                cart,
                s.x,
                s.y,
                d.x,
                d.y,
                labels,
                size,
                region,
                size,
                route,
                w + h,
                &mut state,
            )
        };
        numbers.truncate(drove.length);
        numbers
    }

    /// Whether the check accepts a list.
    pub fn accepts(&mut self, s: Crossing, d: Crossing, drawn: &[u16]) -> bool {
        let (w, h, n) = (self.map.width, self.map.height, self.list.len());
        let (list, cart, size) = (self.list.as_ptr(), self.clearance, self.labels.len());
        let labels = self.labels.as_mut_ptr();
        let (numbers, length) = (drawn.as_ptr(), drawn.len());
        let found = unsafe {
            sys::bodkin_check(
                list, n, n, w, h, cart, s.x, s.y, d.x, d.y, labels, size, numbers, length,
            )
        };
        (found.refusal, found.reason) == (0, 0)
    }
}
