//! Document 02, Req 05, second part: how well a depot is placed, and the run's text.
use crate::asking::Labelled;
use crate::distances::{four, is_assured_by};
use crate::files::markers_of;
use crate::following::{first, First};
use crate::labels::{OPEN, ROCK, SHUT};
use crate::map::{Crossing, Map};
use crate::text::CLEARANCE;
use std::collections::{BTreeMap, VecDeque};
use std::fmt::Write;

/// "65,535 maps a run"
pub const MOST_MAPS: usize = 65_535;

/// Open crossings; those for which the depot is assured; those not assured that have a shortest
/// drive; those with none.
pub type Numbers = [u64; 4];

/// A corner as depot: its label and its line's numbers.
#[derive(Clone, Copy, Debug, PartialEq, Eq)]
pub struct Depot {
    pub label: u8,
    pub numbers: Numbers,
}

/// How a run ends.
#[derive(Clone, Copy, Debug, PartialEq, Eq)]
pub enum End {
    Sums,
    Refused(u8),
    Long,
}

/// A whole run: four depots for each map, in the order of the lines, and the end.
#[derive(Clone, Debug, PartialEq, Eq)]
pub struct Run {
    pub maps: Vec<[Depot; 4]>,
    pub end: End,
}

/// Southwest, southeast, northwest, northeast.
pub fn corners(map: Map) -> [Crossing; 4] {
    let (east, north) = (map.width - 1, map.height - 1);
    [(0, 0), (east, 0), (0, north), (east, north)].map(|(x, y)| Crossing::new(x, y))
}

/// The fewest hops from a crossing to each that open crossings lead to, whichever way round.
fn fewest_hops(on: &Labelled, from: Crossing) -> BTreeMap<Crossing, usize> {
    let mut hops = BTreeMap::from([(from, 0)]);
    let mut next = VecDeque::from([from]);
    while let Some(c) = next.pop_front() {
        for n in on.map.neighbours(c).filter(|&n| on.open(n)) {
            if !hops.contains_key(&n) {
                hops.insert(n, hops[&c] + 1);
                next.push_back(n);
            }
        }
    }
    hops
}

/// The four numbers of a depot: each open crossing is looked at by itself. It has a shortest drive
/// if the fewest hops are as many as the distance.
pub fn numbers(on: &Labelled, depot: Crossing) -> Numbers {
    let mut numbers = [0; 4];
    if !on.open(depot) {
        return numbers;
    }
    let distances = four(on, depot);
    let hops = fewest_hops(on, depot);
    for c in on.map.crossings().filter(|&c| on.open(c)) {
        let driven = hops.get(&c) == Some(&c.distance(depot));
        let kind = match (is_assured_by(distances, on, depot, c), driven) {
            (true, driven) => {
                assert!(driven, "assured without a drive: {c:?} from {depot:?}");
                1
            }
            (false, true) => 2,
            (false, false) => 3,
        };
        numbers[0] += 1;
        numbers[kind] += 1;
    }
    numbers
}

/// A map's four depots.
fn depots(on: &Labelled) -> [Depot; 4] {
    corners(on.map).map(|corner| Depot {
        label: match (on.rocks.contains(&corner), on.open(corner)) {
            (true, _) => ROCK,
            (_, true) => OPEN,
            _ => SHUT,
        },
        numbers: numbers(on, corner),
    })
}

/// The run over an input: map after map, until there are no bytes, or too many, or a bad map.
pub fn run(mut input: &[u8]) -> Run {
    let mut maps = Vec::new();
    let end = loop {
        if input.is_empty() {
            break End::Sums;
        }
        if maps.len() == MOST_MAPS {
            break End::Long;
        }
        match first(input) {
            First::Map(picture, bytes) => {
                let on = Labelled::new(picture.map, CLEARANCE, &markers_of(&picture.rocks));
                maps.push(depots(&on));
                input = &input[bytes..];
            }
            First::Refused(refusal) => break End::Refused(refusal),
            First::Long => break End::Long,
        }
    };
    Run { maps, end }
}

impl Run {
    /// The whole text: a line for each depot, and the sums or the refusal.
    pub fn text(&self) -> String {
        let mut text = String::new();
        let mut sums = [0; 4];
        for depot in self.maps.iter().flatten() {
            line(&mut text, depot.numbers);
            for (sum, number) in sums.iter_mut().zip(depot.numbers) {
                *sum += number;
            }
        }
        match self.end {
            End::Sums => line(&mut text, sums),
            End::Refused(refusal) => text += &format!("refused {refusal}\n"),
            End::Long => text += "refused long\n",
        }
        text
    }
}

fn line(text: &mut String, [a, b, c, d]: Numbers) {
    writeln!(text, "{a} {b} {c} {d}").expect("a string takes what is written")
}

#[cfg(test)]
mod tests {
    use super::*;
    use crate::drives::beginnings;

    fn text(input: &[u8]) -> String {
        run(input).text()
    }

    /// A rock on the depot's own row, counted by hand. From the southwest, x up to 2 is assured,
    /// 14 crossings; of the ten east of it, those on row 0 have no shortest drive.
    #[test]
    fn all_three_kinds() {
        let map = b"P4 5 5 \0\0\0\0\x20";
        let lines = "24 14 8 2\n24 14 8 2\n24 24 0 0\n24 24 0 0\n";
        assert_eq!(text(map), format!("{lines}96 76 16 4\n"));
        let twice = [&map[..], map].concat();
        assert_eq!(text(&twice), format!("{lines}{lines}192 152 32 8\n"));
    }

    /// Rocks at (1,0) and (0,1) shut the southwest corner and (1,1).
    #[test]
    fn a_shut_depot() {
        let map = b"P4\n4 4\n\0\0\x80\x40";
        let lines = "0 0 0 0\n12 10 2 0\n12 10 2 0\n12 12 0 0\n";
        assert_eq!(text(map), format!("{lines}36 32 4 0\n"));
        assert_eq!(run(map).maps[0].map(|d| d.label), [SHUT, OPEN, OPEN, OPEN]);
    }

    /// Four corners that differ, on the rows, from the north: `...#`, `.###`, `....`. The rocks
    /// shut (2,2) and then (1,2); row 0 and column 0 are open, six crossings. From the southwest
    /// all are assured. From the southeast north is closed at once, so row 0 and (0,1) are assured,
    /// and (0,2) has the drive round the corner. From the northwest east is closed at once, so
    /// column 0 and (1,0) are assured, and the two crossings east of that have a drive.
    #[test]
    fn corners_in_their_order() {
        let map = b"P4 4 3 \x10\x70\0";
        let labels = run(map).maps[0].map(|d| d.label);
        assert_eq!(labels, [OPEN, OPEN, OPEN, ROCK]);
        let lines = "6 6 0 0\n6 5 1 0\n6 4 2 0\n0 0 0 0\n";
        assert_eq!(text(map), format!("{lines}18 15 3 0\n"));
    }

    #[test]
    fn small_inputs() {
        assert_eq!(text(b""), "0 0 0 0\n");
        assert_eq!(text(b"\n"), "refused 12\n");
        let one = "1 1 0 0\n".repeat(4);
        assert_eq!(text(b"P4 1 1 \0"), format!("{one}4 4 0 0\n"));
        assert_eq!(text(b"P4 1 1 \x7f"), format!("{one}4 4 0 0\n"));
        assert_eq!(text(b"P4 1 1 \x80"), "0 0 0 0\n".repeat(5));
        assert_eq!(text(b"P4 1 1 \0P4 1 "), format!("{one}refused 13\n"));
        assert_eq!(text(b"P4 1 1 \0\n"), format!("{one}refused 12\n"));
        assert_eq!(text(b"P4 1 1 \0P4 1 0 "), format!("{one}refused 1\n"));
        assert_eq!(text(b"P4 1 1 \0P4 1 1 "), format!("{one}refused 14\n"));
    }

    /// A map with more rocks than a list may hold ends the run at once after its raster.
    #[test]
    fn too_many_rocks() {
        let one = "1 1 0 0\n".repeat(4);
        let full = [b"P4 256 256 ".as_slice(), &[0xff; 8192]].concat();
        let input = [b"P4 1 1 \0", full.as_slice(), b"no map"].concat();
        assert_eq!(text(&input), format!("{one}refused 7\n"));
        assert_eq!(text(&input[..8 + 8202]), format!("{one}refused 14\n"));
        let mut most = full;
        most[11 + 1024..].fill(0);
        let north = "57344 57344 0 0\n";
        assert_eq!(
            text(&most),
            format!("{north}{north}0 0 0 0\n0 0 0 0\n114688 114688 0 0\n")
        );
    }

    /// The most maps, and a byte more.
    #[test]
    fn many_maps() {
        let maps = b"P4 1 1 \0".repeat(MOST_MAPS);
        let run = run(&maps);
        assert_eq!((run.maps.len(), run.end), (MOST_MAPS, End::Sums));
        assert!(run.text().ends_with("1 1 0 0\n262140 262140 0 0\n"));
        let more = super::run(&[&maps[..], b"x"].concat());
        assert_eq!((more.maps.len(), more.end), (MOST_MAPS, End::Long));
        assert!(more.text().ends_with("1 1 0 0\nrefused long\n"));
    }

    /// On every map of up to 4 by 3: fewest hops say the same as drives counted hop by hop, and
    /// the last three numbers add up to the first.
    #[test]
    fn every_small_map() {
        for (width, height) in [(1, 1), (4, 1), (2, 3), (3, 3), (4, 3)] {
            let map = Map::new(width, height);
            for rocks in 0..1u32 << (width * height) {
                let marked = |&c: &Crossing| rocks >> map.number(c) & 1 == 1;
                let rocks: Vec<_> = map.crossings().filter(marked).collect();
                let on = Labelled::new(map, CLEARANCE, &markers_of(&rocks));
                for depot in corners(map).into_iter().filter(|&c| on.open(c)) {
                    let hops = fewest_hops(&on, depot);
                    for c in map.crossings().filter(|&c| on.open(c)) {
                        let counted = beginnings(&on, depot, c).contains_key(&c);
                        assert_eq!(hops.get(&c) == Some(&depot.distance(c)), counted);
                    }
                    let [open, assured, driven, none] = numbers(&on, depot);
                    assert_eq!(open, assured + driven + none);
                }
            }
        }
    }
}
