//! Carts of two clearances over one list, on the compiled library: "a cart with more clearance
//! never has a closed crossing that a lower one finds open", and what follows from it; and a cart
//! of the greatest clearance, for which the whole map is open.
use crate::asked::Asked;
use crate::maps;
use crate::random::Random;
use crate::stones::CLEARANCES;
use independent::map::Crossing;
use independent::markers::TALLEST;

/// So many lists are asked about.
const LISTS: u64 = 20_000;

/// These generators begin here, so that they share none with a case or a journey.
const FIRST: u64 = 1 << 41;

/// What the higher cart has that the lower has not.
const GAINS: [&str; 6] = [
    "open crossings",
    "longer distances",
    "assurance",
    "hops",
    "crossing lines",
    "a shortest drive or a larger region",
];

#[derive(Default)]
pub struct Carts {
    lists: u64,
    gains: [u64; GAINS.len()],
    /// Shut crossings and groups may be more, not fewer.
    more_shut: u64,
    more_groups: u64,
    /// Drives of the lower cart, each accepted for the higher.
    drives: u64,
    pub faults: Vec<String>,
}

impl Carts {
    pub fn print(&self) {
        let gains = GAINS.iter().zip(self.gains);
        let gains: Vec<String> = gains.map(|(name, n)| format!("{name} {n}")).collect();
        println!(
            "carts: two clearances over each of {} lists; the higher cart gains {}; {} drives of the lower accepted for the higher; shut crossings \
             rise {} times, groups {}; nothing that a lower cart finds open is closed for a higher one: {}",
            self.lists,
            gains.join(", "),
            self.drives,
            self.more_shut,
            self.more_groups,
            if self.faults.is_empty() { "yes" } else { "NO" }
        );
    }

    /// Notes a gain, and a loss as a fault.
    fn note(&mut self, index: u64, gain: usize, lower: &[bool], higher: &[bool]) {
        let lost = lower.iter().zip(higher).any(|(low, high)| *low && !high);
        if lost {
            let line = format!("carts {index}: a higher cart loses {}", GAINS[gain]);
            self.faults.push(line);
        }
        self.gains[gain] += u64::from(lower != higher);
    }

    /// What the two say of the whole map.
    fn maps(&mut self, index: u64, low: &mut Asked, high: &mut Asked) {
        let (lower, higher) = (low.label(), high.label());
        self.more_shut += u64::from(higher.shut > lower.shut);
        self.more_groups += u64::from(higher.groups > lower.groups);
        let open = |asked: &Asked| -> Vec<bool> { asked.labels.iter().map(|l| *l == 0).collect() };
        self.note(index, 0, &open(low), &open(high));
        let (lower, higher) = (low.measure(), high.measure());
        let as_long: Vec<bool> = lower.iter().zip(&higher).map(|(l, h)| h >= l).collect();
        if as_long.contains(&false) {
            self.faults.push(format!(
                "carts {index}: a higher cart has a shorter distance"
            ));
        }
        self.gains[1] += u64::from(lower != higher);
    }

    /// What the two say of two places.
    fn places(&mut self, index: u64, carts: [&mut Asked; 2], [s, d]: [Crossing; 2], state: u32) {
        let [low, high] = carts;
        self.note(index, 2, &[low.assured(s, d)], &[high.assured(s, d)]);
        let named = |hops: Vec<Crossing>| -> Vec<bool> {
            let near = one_hop_from(d);
            near.iter().map(|c| hops.contains(c)).collect()
        };
        self.note(index, 3, &named(low.hops(s, d)), &named(high.hops(s, d)));
        self.note(index, 4, &[low.lines(s, d)], &[high.lines(s, d)]);
        let within =
            |(_, sheet): (u8, Vec<u8>)| -> Vec<bool> { sheet.iter().map(|b| *b == 1).collect() };
        self.note(
            index,
            5,
            &within(low.region(s, d)),
            &within(high.region(s, d)),
        );
        let drive = low.drive(s, d, state);
        if !drive.is_empty() {
            self.drives += 1;
            if !high.accepts(s, d, &drive) {
                self.faults.push(format!(
                    "carts {index}: a lower cart's drive is not accepted"
                ));
            }
        }
    }

    /// A cart that nothing stops.
    fn highest(&mut self, index: u64, asked: &Asked, [s, d]: [Crossing; 2]) {
        let mut asked = asked.for_cart(TALLEST);
        let numbers = asked.label();
        let counted = numbers.rocks + numbers.shut + numbers.groups + usize::from(numbers.refusal);
        let open = asked.labels.iter().all(|label| *label == 0);
        if counted > 0 || !open || asked.region(s, d).0 != 0 || !asked.assured(s, d) {
            self.faults
                .push(format!("carts {index}: 65,535 does not open the whole map"));
        }
    }
}

/// The crossings one hop from a place, whether on the map or not.
fn one_hop_from(c: Crossing) -> [Crossing; 4] {
    [
        Crossing::new(c.x + 1, c.y),
        Crossing::new(c.x.wrapping_sub(1), c.y),
        Crossing::new(c.x, c.y + 1),
        Crossing::new(c.x, c.y.wrapping_sub(1)),
    ]
}

/// A clearance that is not lower: by one, by a few, or by anything.
fn not_lower(random: &mut Random, clearance: u16) -> u16 {
    let room = usize::from(TALLEST - clearance);
    let most = random.pick(&[1, 2, 60, room]).min(room);
    clearance + random.between(0, most) as u16
}

/// Compares carts over random lists.
pub fn run(seed: u64) -> Carts {
    let mut seen = Carts::default();
    for index in FIRST..FIRST + LISTS {
        let mut random = Random::of_case(seed, index);
        let (_, map) = maps::size(&mut random);
        let (_, rocks) = maps::rocks(&mut random, map);
        let (_, clearance) = random.by_weight(&CLEARANCES);
        let lower = clearance(&mut random);
        let higher = not_lower(&mut random, lower);
        let about = random.pick(&[lower, higher]);
        let mut low = Asked::new(&mut random, map, about, &rocks).for_cart(lower);
        let mut high = low.for_cart(higher);
        let places = [maps::any(&mut random, map), maps::any(&mut random, map)];
        let state = random.next() as u32;
        seen.lists += 1;
        seen.maps(index, &mut low, &mut high);
        seen.places(index, [&mut low, &mut high], places, state);
        seen.highest(index, &low, places);
    }
    let never = GAINS.iter().zip(seen.gains).filter(|(_, n)| *n == 0);
    let never: Vec<String> = never
        .map(|(name, _)| format!("carts: never {name}"))
        .collect();
    seen.faults.extend(never);
    if seen.more_shut == 0 || seen.more_groups == 0 {
        seen.faults
            .push("carts: shut crossings or groups never rose".to_string());
    }
    seen
}
