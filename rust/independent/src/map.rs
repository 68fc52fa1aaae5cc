//! "The map and the markers", first part: crossings, their numbers, neighbours and distance.
use std::collections::BTreeSet;

/// Width and height are 1 to this.
pub const SIDE: usize = 256;

/// A crossing: x rises to the east from 0, y to the north from 0.
#[derive(Clone, Copy, Debug, PartialEq, Eq, PartialOrd, Ord, Hash)]
pub struct Crossing {
    pub x: usize,
    pub y: usize,
}

/// A set of crossings.
pub type Crossings = BTreeSet<Crossing>;

/// The four ways, in the order in which distances are given.
#[derive(Clone, Copy, Debug, PartialEq, Eq)]
pub enum Way {
    East,
    South,
    West,
    North,
}

/// East, south, west, north.
pub const WAYS: [Way; 4] = [Way::East, Way::South, Way::West, Way::North];

/// A width and a height, whether allowed or not.
#[derive(Clone, Copy, Debug, PartialEq, Eq)]
pub struct Map {
    pub width: usize,
    pub height: usize,
}

impl Crossing {
    pub fn new(x: usize, y: usize) -> Crossing {
        Crossing { x, y }
    }

    /// East-west plus north-south offset.
    pub fn distance(self, other: Crossing) -> usize {
        self.x.abs_diff(other.x) + self.y.abs_diff(other.y)
    }
}

impl Map {
    pub fn new(width: usize, height: usize) -> Map {
        Map { width, height }
    }

    /// Width or height is 0 or over the limit.
    pub fn bad_size(self) -> bool {
        [self.width, self.height]
            .iter()
            .any(|&side| side == 0 || side > SIDE)
    }

    /// A sheet whose length is not width times height: bytes, or of distances sixteen-bit numbers.
    /// Asked only of allowed sizes.
    pub fn bad_sheet(self, length: usize) -> bool {
        length != self.width * self.height
    }

    pub fn has(self, c: Crossing) -> bool {
        c.x < self.width && c.y < self.height
    }

    pub fn number(self, c: Crossing) -> usize {
        c.y * self.width + c.x
    }

    /// All crossings, in the order of their numbers.
    pub fn crossings(self) -> impl Iterator<Item = Crossing> {
        (0..self.height).flat_map(move |y| (0..self.width).map(move |x| Crossing { x, y }))
    }

    /// The crossing so many hops that way, if it is on the map.
    pub fn onward(self, c: Crossing, way: Way, hops: usize) -> Option<Crossing> {
        let there = match way {
            Way::East => Crossing::new(c.x.checked_add(hops)?, c.y),
            Way::South => Crossing::new(c.x, c.y.checked_sub(hops)?),
            Way::West => Crossing::new(c.x.checked_sub(hops)?, c.y),
            Way::North => Crossing::new(c.x, c.y.checked_add(hops)?),
        };
        self.has(there).then_some(there)
    }

    /// The two to four neighbours on the map; on a map with a side of 1 there are fewer.
    pub fn neighbours(self, c: Crossing) -> impl Iterator<Item = Crossing> {
        WAYS.into_iter()
            .filter_map(move |way| self.onward(c, way, 1))
    }

    /// A sheet, one value a crossing, by number.
    pub fn sheet<T: Clone + Default>(self, value: impl Fn(Crossing) -> T) -> Vec<T> {
        let mut sheet = vec![T::default(); self.width * self.height];
        for c in self.crossings() {
            sheet[self.number(c)] = value(c);
        }
        sheet
    }
}
