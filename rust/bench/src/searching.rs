//! Which map of a side takes most sweeps. Up to 5 a side every map is tried. On larger ones, up to
//! 11, the search climbs: from a random map, rocks are put, taken or moved one at a time; a map that
//! takes fewer sweeps than the one before it is left again, but now and then for one or two fewer,
//! the more seldom the longer the climb. What it finds is a map that takes so many, and no proof
//! that none takes more.
use crate::maps;

/// A map as a number: crossing y * side + x is a bit.
type Bits = u128;

/// Up to this side there are few enough maps to try them all.
const ALL: usize = 5;

/// A map of at most this side fits.
const LARGEST: usize = 11;

/// So many climbs, each of so many steps.
const CLIMBS: usize = 40;
const STEPS: usize = 400_000;

/// The crossings of a side's map that have a neighbour to the east, and those that have one to the
/// west.
#[derive(Clone, Copy)]
struct Square {
    side: usize,
    whole: Bits,
    not_east: Bits,
    not_west: Bits,
}

impl Square {
    fn new(side: usize) -> Square {
        let whole = Bits::MAX >> (Bits::BITS as usize - side * side);
        let column: Bits = (0..side).map(|y| 1 << (y * side)).sum();
        Square {
            side,
            whole,
            not_east: whole & !(column << (side - 1)),
            not_west: whole & !column,
        }
    }

    /// All crossings are judged together: those with two or more closed neighbours become closed.
    fn sweep(self, closed: Bits) -> Bits {
        let east = (closed >> 1) & self.not_east;
        let west = (closed << 1) & self.not_west;
        let north = closed >> self.side;
        let south = (closed << self.side) & self.whole;
        closed | (east & west) | (north & south) | ((east | west) & (north | south))
    }

    /// The sweeps that change something.
    fn sweeps(self, rocks: Bits) -> usize {
        let (mut closed, mut sweeps) = (rocks, 0);
        loop {
            let next = self.sweep(closed);
            if next == closed {
                return sweeps;
            }
            closed = next;
            sweeps += 1;
        }
    }

    /// The best of all maps, and how many there are like it.
    fn try_all(self) -> (Bits, usize) {
        let (mut best, mut most, mut like) = (0, 0, 0);
        for rocks in 0..1 << (self.side * self.side) {
            let sweeps = self.sweeps(rocks);
            if sweeps > most {
                (best, most, like) = (rocks, sweeps, 0);
            }
            like += usize::from(sweeps == most);
        }
        (best, like)
    }

    /// The best map on many climbs, and how many of them came to one as good.
    fn climb(self) -> (Bits, usize) {
        let mut draw = Draw(1);
        let (mut best, mut like) = (0, 0);
        for _ in 0..CLIMBS {
            let top = self.climb_once(&mut draw);
            if self.sweeps(top) > self.sweeps(best) {
                (best, like) = (top, 0);
            }
            like += usize::from(self.sweeps(top) == self.sweeps(best));
        }
        (best, like)
    }

    fn climb_once(self, draw: &mut Draw) -> Bits {
        let crossings = self.side * self.side;
        let mut here = (0..self.side).fold(0, |rocks, _| rocks | 1 << draw.below(crossings));
        let mut sweeps = self.sweeps(here);
        let (mut best, mut most) = (here, sweeps);
        for step in 0..STEPS {
            let mut there = here ^ 1 << draw.below(crossings);
            if draw.below(2) == 0 {
                there ^= 1 << draw.below(crossings);
            }
            let seldom = 10 + 1_200 * step / STEPS;
            let fewer = 2usize.saturating_sub(draw.below(seldom));
            let next = self.sweeps(there);
            if next + fewer >= sweeps {
                (here, sweeps) = (there, next);
            }
            if sweeps > most {
                (best, most) = (here, sweeps);
            }
        }
        best
    }
}

/// Draws by the chooser's rule, sixty-four bits wide.
struct Draw(u64);

impl Draw {
    fn below(&mut self, bound: usize) -> usize {
        self.0 = self
            .0
            .wrapping_mul(6364136223846793005)
            .wrapping_add(1442695040888963407);
        (self.0 >> 33) as usize % bound
    }
}

/// Searches the maps of a side, and prints the best with its number of sweeps.
pub fn most(side: usize) -> Option<()> {
    if !(1..=LARGEST).contains(&side) {
        return None;
    }
    let square = Square::new(side);
    let (best, like, of) = if side <= ALL {
        let (best, like) = square.try_all();
        (best, like, "maps")
    } else {
        let (best, like) = square.climb();
        (best, like, "climbs")
    };
    let rocks: Vec<bool> = (0..side * side).map(|i| best >> i & 1 == 1).collect();
    println!("{}", maps::show(&rocks, side));
    println!(
        "{} sweeps; {like} {of} come to as many",
        square.sweeps(best)
    );
    Some(())
}
