//! What the calls are asked over one map: its list, its two files, and places for the questions.
use crate::layer::Layer;
use crate::maps;
use crate::plain::Plain;
use grainbodkin_sys::Marker;

/// A place asked.
pub type Place = (usize, usize);

/// So many places at most are tried at each end, until one answers without a refusal.
const TRIES: usize = 12;

/// One map, and what is asked over it.
pub struct Input {
    pub side: usize,
    /// The clearance of the cart that asks.
    pub clearance: u16,
    /// A marker on each rock's crossing, by number. Ids start at 2, so that 1 is free. Each is as
    /// high as can be, but those of `stones`.
    pub list: Vec<Marker>,
    /// The map as a P1 file with a row a line, and as a P4 file.
    pub text: Vec<u8>,
    pub packed: Vec<u8>,
    /// A sheet of numbers, and the same as a P5 picture; and an old picture, of one byte a
    /// crossing.
    pub sheet: Vec<u16>,
    pub picture: Vec<u8>,
    pub old_picture: Vec<u8>,
    /// The ends of region and drive.
    pub s: Place,
    pub d: Place,
    /// A drive between them, where there is one, as it might be drawn by hand.
    pub drawn: Vec<u16>,
    /// Home and place of assurance and hop.
    pub home: Place,
    pub place: Place,
}

impl Input {
    /// The map of this name, or none where there is no such name.
    pub fn new(name: &str, side: usize) -> Option<Input> {
        let map = maps::rocks(name, side)?;
        let sheet: Vec<u16> = (0..side * side).map(|i| (i * 37 % 65_521) as u16).collect();
        let mut input = Input {
            side,
            clearance: maps::clearance(name),
            picture: picture(&sheet, side),
            old_picture: old_picture(&sheet, side),
            sheet,
            list: markers(&map, &maps::heights(name, side), side),
            text: text(&map, side),
            packed: packed(&map, side),
            s: (0, 0),
            d: (side - 1, side - 1),
            drawn: Vec::new(),
            home: (0, 0),
            place: (side - 1, side - 1),
        };
        input.choose_places();
        Some(input)
    }

    /// Chooses ends near opposite corners between which there is a shortest drive, and a home near
    /// a corner with the farthest place for which it is assured. Where the places that are tried
    /// give none, the corners stay, and the questions are refused.
    fn choose_places(&mut self) {
        let side = self.side;
        let mut labels = vec![0; side * side];
        let n = self.list.len();
        Plain::label(&self.list, n, side, side, self.clearance, &mut labels);
        let mut open: Vec<Place> = (0..side * side)
            .filter(|&i| labels[i] == 0)
            .map(|i| (i % side, i / side))
            .collect();
        open.sort_by_key(|&(x, y)| x + y);
        let near = || open.iter().copied().take(TRIES);
        let far = || open.iter().copied().rev().take(TRIES);
        let mut pairs = near().flat_map(|s| far().map(move |d| (s, d)));
        let ends = pairs.find(|&(s, d)| self.has_drive(s, d));
        let homes = near().map(|home| (home, self.farthest_assured(home, &open)));
        let hop = homes.max_by_key(|&(home, place)| distance(home, place));
        (self.s, self.d) = ends.unwrap_or((self.s, self.d));
        self.drawn = self.a_drive();
        (self.home, self.place) = hop.unwrap_or((self.home, self.place));
    }

    fn has_drive(&self, (sx, sy): Place, (dx, dy): Place) -> bool {
        let (list, n, side) = (&self.list, self.list.len(), self.side);
        let mut labels = vec![0; side * side];
        let mut region = labels.clone();
        let (labels, region) = (&mut labels, &mut region);
        let c = self.clearance;
        Plain::region(list, n, side, side, c, sx, sy, dx, dy, labels, region) == 0
    }

    /// A drive from s to d, or nothing.
    fn a_drive(&self) -> Vec<u16> {
        let (list, n, side) = (&self.list, self.list.len(), self.side);
        let ((sx, sy), (dx, dy)) = (self.s, self.d);
        let mut labels = vec![0; side * side];
        let mut region = labels.clone();
        let mut route = vec![0; 2 * side];
        let (labels, region, c, mut z) = (&mut labels, &mut region, self.clearance, 1);
        let drove = Plain::drive(
            list, n, side, side, c, sx, sy, dx, dy, labels, region, &mut route, &mut z,
        );
        route.truncate(drove.length);
        route
    }

    /// The open crossing farthest from an open home for which home is assured: both offsets are at
    /// most home's distances, or there are none.
    fn farthest_assured(&self, home: Place, open: &[Place]) -> Place {
        let (list, n, side) = (&self.list, self.list.len(), self.side);
        let mut labels = vec![0; side * side];
        let ((hx, hy), c) = (home, self.clearance);
        let four = Plain::distances(list, n, side, side, c, hx, hy, &mut labels).four;
        let [east, south, west, north] = four.map(usize::from);
        let assured = |&(x, y): &Place| {
            let row = if x < hx { west } else { east };
            let column = if y < hy { south } else { north };
            x.abs_diff(hx) <= row && y.abs_diff(hy) <= column
        };
        let places = open.iter().copied().filter(assured);
        places.max_by_key(|&p| distance(home, p)).unwrap_or(home)
    }
}

/// East-west plus north-south offset.
fn distance(a: Place, b: Place) -> usize {
    a.0.abs_diff(b.0) + a.1.abs_diff(b.1)
}

/// A marker on each rock's crossing, of the crossing's height.
fn markers(map: &[bool], heights: &[u16], side: usize) -> Vec<Marker> {
    let rocks = (0..map.len()).filter(|&i| map[i]);
    rocks
        .zip(2..)
        .map(|(i, id)| Marker {
            id,
            x: (i % side) as u16,
            y: (i / side) as u16,
            height: heights[i],
        })
        .collect()
}

/// The map as a P1 file.
fn text(map: &[bool], side: usize) -> Vec<u8> {
    let mut file = format!("P1\n{side} {side}\n").into_bytes();
    for row in map.chunks(side).rev() {
        file.extend(row.iter().map(|&rock| b'0' + rock as u8));
        file.push(b'\n');
    }
    file
}

/// The map as a P4 file.
fn packed(map: &[bool], side: usize) -> Vec<u8> {
    let mut file = format!("P4\n{side} {side}\n").into_bytes();
    for row in map.chunks(side).rev() {
        for eight in row.chunks(8) {
            let bits = eight.iter().enumerate();
            file.push(bits.fold(0, |byte, (j, &rock)| byte | (rock as u8) << (7 - j)));
        }
    }
    file
}

/// A sheet as a P5 picture, two bytes a crossing.
fn picture(sheet: &[u16], side: usize) -> Vec<u8> {
    let mut file = format!("P5\n{side} {side}\n65535\n").into_bytes();
    let rows = sheet.chunks(side).rev().flatten();
    file.extend(rows.flat_map(|number| number.to_be_bytes()));
    file
}

/// The low bytes of a sheet as an old P5 picture, one byte a crossing.
fn old_picture(sheet: &[u16], side: usize) -> Vec<u8> {
    let mut file = format!("P5\n{side} {side}\n255\n").into_bytes();
    file.extend(sheet.chunks(side).rev().flatten().map(|&n| n as u8));
    file
}
