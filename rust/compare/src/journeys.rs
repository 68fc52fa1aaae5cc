//! Carts that are sent home on the compiled library: random maps and stones, an assured place, and
//! at each hop any crossing that the answer names. A cart must be home after exactly the east-west
//! plus north-south distance, on open crossings only: by stones that it passes over, never by a
//! rock.
use crate::asked::Asked;
use crate::maps;
use crate::random::Random;
use crate::stones::CLEARANCES;
use independent::map::Crossing;

/// So many pairs of a home and a place are asked about.
const PAIRS: u64 = 20_000;

/// The journeys' generators begin here, so that they share none with a case.
const FIRST: u64 = 1 << 40;

#[derive(Default)]
pub struct Journeys {
    pub pairs: u64,
    /// Assured by document 01's first rule too: each offset less than home's distance.
    pub short_of_it: u64,
    /// Assured since Req 02 alone: an offset that equals home's distance.
    pub at_the_distance: u64,
    /// By both tests, by crossing lines alone, by assurance alone, by neither though there is a
    /// shortest drive, and by neither where there is none.
    pub tests: [u64; 5],
    /// Journeys on which a cart passes over a stone.
    pub over_stones: u64,
    pub faults: Vec<String>,
}

impl Journeys {
    pub fn print(&self) {
        println!(
            "journeys: {} pairs of open crossings; assured {}, of these {} only since an offset equal to home's distance is enough, and {} over stones; \
             every cart home by random hops in the exact count: {}",
            self.pairs,
            self.short_of_it + self.at_the_distance,
            self.at_the_distance,
            self.over_stones,
            if self.faults.is_empty() { "yes" } else { "NO" }
        );
        let [both, lines, assured, neither, none] = self.tests;
        println!(
            "both tests: a drive is sure by crossing lines and by assurance for {both} of them, by crossing lines alone for {lines}, by assurance alone \
             for {assured}, by neither though there is one for {neither}; {none} have none"
        );
    }
}

/// What a journey is asked of its map.
impl Asked {
    /// Which test says that a drive is sure: a place among `Journeys`' five.
    fn tests(&mut self, home: Crossing, place: Crossing) -> usize {
        match (self.lines(home, place), self.assured(home, place)) {
            (true, true) => 0,
            (true, false) => 1,
            (false, true) => 2,
            (false, false) => 4 - usize::from(self.region(home, place).0 == 0),
        }
    }

    /// One hop that the answer names, at random; none at home or at a refusal.
    fn hop(&mut self, random: &mut Random, home: Crossing, place: Crossing) -> Option<Crossing> {
        let hops = self.hops(home, place);
        (!hops.is_empty()).then(|| random.pick(&hops))
    }

    /// Whether an offset equals home's distance that way, and so document 01's first rule would
    /// have said no.
    fn at_the_distance(&mut self, home: Crossing, place: Crossing) -> bool {
        let [east, south, west, north] = self.four(home);
        let row = if place.x > home.x { east } else { west };
        let column = if place.y > home.y { north } else { south };
        place.x != home.x && place.x.abs_diff(home.x) == row
            || place.y != home.y && place.y.abs_diff(home.y) == column
    }

    /// The cart's way from the place, and whether stones lie on it: what went wrong, if anything
    /// did.
    fn journey(
        &mut self,
        random: &mut Random,
        home: Crossing,
        place: Crossing,
        stones: &mut bool,
    ) -> Option<String> {
        let distance = place.distance(home);
        let mut at = place;
        for hops in 0..distance {
            match self.hop(random, home, at) {
                Some(next) if self.open(next) => {
                    at = next;
                    *stones |= self.stone(at);
                }
                Some(next) => {
                    return Some(format!(
                        "a cart hops from {at:?} onto {next:?}, which is closed"
                    ))
                }
                None => {
                    return Some(format!(
                        "a cart is stranded at {at:?} after {hops} of {distance} hops"
                    ))
                }
            }
        }
        let home_now = self.hop(random, home, at).is_none() && at == home;
        (!home_now)
            .then(|| format!("a cart is at {at:?} after {distance} hops, and home is {home:?}"))
    }
}

/// Sends carts home from random places on random maps.
pub fn run(seed: u64) -> Journeys {
    let mut seen = Journeys::default();
    let mut index = FIRST;
    while seen.pairs < PAIRS {
        let mut random = Random::of_case(seed, index);
        index += 1;
        let (_, map) = maps::size(&mut random);
        let (_, rocks) = maps::rocks(&mut random, map);
        let (_, clearance) = random.by_weight(&CLEARANCES);
        let clearance = clearance(&mut random);
        let mut asked = Asked::new(&mut random, map, clearance, &rocks);
        asked.label();
        let ends = [maps::any(&mut random, map), maps::any(&mut random, map)];
        if ends.iter().any(|&c| !asked.open(c)) {
            continue;
        }
        seen.pairs += 1;
        let [home, place] = ends;
        let test = asked.tests(home, place);
        seen.tests[test] += 1;
        if test < 3 && asked.region(home, place).0 != 0 {
            seen.faults.push(format!(
                "journey {index}: a drive is sure, and there is none"
            ));
        }
        if !asked.assured(home, place) {
            continue;
        }
        if asked.at_the_distance(home, place) {
            seen.at_the_distance += 1;
        } else {
            seen.short_of_it += 1;
        }
        let mut stones = false;
        let fault = asked.journey(&mut random, home, place, &mut stones);
        seen.over_stones += u64::from(stones);
        seen.faults
            .extend(fault.map(|f| format!("journey {index}: {f}")));
    }
    if seen.over_stones == 0 {
        seen.faults.push("no journey went over a stone".to_string());
    }
    if seen.at_the_distance == 0 {
        seen.faults
            .push("no journey began at home's very distance".to_string());
    }
    seen
}
