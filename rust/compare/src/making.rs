//! Makes the case with a given number: a call, a map, a list of stones, a cart, places and buffers,
//! and now and then something harmed.
use crate::case::{Call, Case};
use crate::drawings;
use crate::harms::{harm, SIZE_HARMS};
use crate::lists::{lend, noise};
use crate::mapfiles;
use crate::maps::{rocks, size};
use crate::picturefiles;
use crate::places;
use crate::random::{Random, Weighted};
use crate::stones;
use independent::map::Map;

/// How often each call is made, by weight.
const WEIGHTS: [Weighted<Call>; 17] = [
    ("enter", 11, Call::Enter),
    ("clear", 11, Call::Clear),
    ("label", 11, Call::Label),
    ("sweeps", 12, Call::Sweeps),
    ("distances", 11, Call::Distances),
    ("measure", 11, Call::Measure),
    ("assured", 11, Call::Assured),
    ("hop", 11, Call::Hop),
    ("region", 11, Call::Region),
    ("drive", 12, Call::Drive),
    ("check", 14, Call::Check),
    ("lines", 13, Call::Lines),
    ("lines drive", 14, Call::LinesDrive),
    ("read", 15, Call::Read),
    ("write", 12, Call::Write),
    ("write a sheet", 11, Call::WriteSheet),
    ("read a sheet", 14, Call::ReadSheet),
];

/// How many harms a case comes to.
const HARMS: [usize; 13] = [0, 0, 0, 0, 0, 0, 0, 0, 1, 1, 1, 2, 4];

/// The case with this number in the run with this seed.
pub fn make(seed: u64, index: u64) -> Case {
    let mut random = Random::of_case(seed, index);
    let (_, call) = random.by_weight(&WEIGHTS);
    if call == Call::Read {
        return read_case(&mut random);
    }
    if call == Call::WriteSheet || call == Call::ReadSheet {
        return picture_case(&mut random, call);
    }
    let (size, map) = size(&mut random);
    let (shape, rocks) = rocks(&mut random, map);
    let mut case = Case::new(call, map);
    case.notes = vec![size, shape];
    lend(&mut random, &mut case, &rocks);
    stones::choose(&mut random, &mut case);
    places::choose(&mut random, &mut case, &rocks);
    places::choose_id(&mut random, &mut case);
    lend_buffers(&mut random, &mut case);
    for _ in 0..random.pick(&HARMS) {
        harm(&mut random, &mut case);
    }
    case
}

/// Reading: a file and a list with about as many slots as the file has rocks, full of noise.
fn read_case(random: &mut Random) -> Case {
    let (notes, file, rocks) = mapfiles::file(random);
    let mut case = Case::new(Call::Read, Map::new(0, 0));
    case.notes = notes;
    let slots = about(random, &mut case, rocks);
    case.before.list = noise(random, slots);
    case.before.file = file;
    case
}

/// A sheet and a picture, or room for one: the sheet about as long as the map, full of noise.
fn picture_case(random: &mut Random, call: Call) -> Case {
    let (name, map) = size(random);
    let mut case = Case::new(call, map);
    case.notes = vec![name];
    let crossings = map.width * map.height;
    if call == Call::ReadSheet {
        let (notes, file) = picturefiles::file(random, map);
        case.notes.extend(notes);
        case.before.file = file;
        let length = if random.percent(70) {
            crossings
        } else {
            about(random, &mut case, crossings)
        };
        case.before.picture = random.words(length);
        return case;
    }
    let length = if random.percent(80) {
        crossings
    } else {
        about(random, &mut case, crossings)
    };
    case.before.picture = random.words(length);
    let needed = 11 + digits(map) + 2 * crossings;
    let length = about(random, &mut case, needed);
    case.before.out = random.bytes(length);
    if random.percent(10) {
        let (name, harm) = random.pick(&SIZE_HARMS);
        harm(random, &mut case);
        case.notes.push(name);
    }
    case
}

/// Sheets of the right size, a route about as long as the drive, an output about as long as the
/// file; all full of noise.
fn lend_buffers(random: &mut Random, case: &mut Case) {
    let crossings = case.map.width * case.map.height;
    if case.call.sheets() > 0 {
        case.before.labels = random.bytes(crossings);
    }
    if matches!(case.call, Call::Region | Call::Drive | Call::LinesDrive) {
        case.before.region = random.bytes(crossings);
    }
    if case.call == Call::Measure {
        case.before.sheets = std::array::from_fn(|_| random.words(crossings));
    }
    if matches!(case.call, Call::Drive | Call::LinesDrive) {
        let needed = case.places[0].distance(case.places[1]) + 1;
        let length = about(random, case, needed);
        case.before.route = random.words(length);
        let any = random.next() as u32;
        case.before.state = random.pick(&[0, 1, u32::MAX, any, any, any]);
    }
    if case.call == Call::Check {
        let (names, drawn) = drawings::draw(random, case);
        case.notes.extend(names);
        case.before.drawn = drawn;
    }
    if case.call == Call::Write {
        let needed = 5 + digits(case.map) + case.map.width.div_ceil(8) * case.map.height;
        let length = about(random, case, needed);
        case.before.out = random.bytes(length);
    }
}

/// How many digits width and height have together.
fn digits(map: Map) -> usize {
    map.width.to_string().len() + map.height.to_string().len()
}

/// A length for a buffer that needs so many elements.
type Length = Weighted<fn(&mut Random, usize) -> usize>;

pub const LENGTHS: [Length; 8] = [
    ("a buffer of no elements", 1, |_, _| 0),
    ("a buffer one short", 1, |_, needed| {
        needed.saturating_sub(1)
    }),
    ("a buffer two short", 1, |_, needed| {
        needed.saturating_sub(2)
    }),
    ("a buffer too short", 1, |r, needed| r.below(needed.max(1))),
    ("a buffer just long enough", 4, |_, needed| needed),
    ("a buffer one longer", 2, |_, needed| needed + 1),
    ("a buffer longer", 4, |r, needed| needed + r.between(2, 200)),
    ("a buffer much longer", 1, |r, needed| {
        needed + r.between(4000, 5000)
    }),
];

/// A length about the needed one, from nothing to more than enough.
fn about(random: &mut Random, case: &mut Case, needed: usize) -> usize {
    let (name, length) = random.by_weight(&LENGTHS);
    case.notes.push(name);
    length(random, needed)
}

#[cfg(test)]
mod tests {
    use super::*;

    /// A case depends on the seed and its number alone.
    #[test]
    fn a_case_can_be_made_again() {
        for index in 0..500 {
            let (one, again) = (make(5, index), make(5, index));
            assert_eq!(format!("{one:?}"), format!("{again:?}"));
        }
        let other = (0..500).filter(|&i| make(5, i).before != make(6, i).before);
        assert!(other.count() > 400);
    }
}
