//! The refusals: their numbers, the lowest that applies, and that 1 to 4 change no lent byte of any
//! asking.

mod common;

use std::error::Error;

use common::{at, bad_lists, eight, slots, Lent, ASKINGS, BAD_SIZES, LOWEST, R};
use grainbodkin::{Map, Markers, MarkersRef, NoRefusal, Refusal, SIDE, TALLEST};

/// Asks all of them, and sees that each is refused so and changes nothing that is lent.
fn all_refuse(list: MarkersRef<'_>, lent: &Lent, refusal: Refusal) {
    for (name, ask) in ASKINGS {
        let mut after = lent.clone();
        let answer = ask(list, at(8, 8), at(8, 8), &mut after);
        assert_eq!(answer, Err(refusal), "{name}");
        assert_eq!(&after, lent, "{name}");
    }
}

#[test]
fn numbers_and_back() {
    for (number, refusal) in (1..).zip(Refusal::ALL) {
        assert_eq!(refusal.number(), number);
        assert_eq!(u8::from(refusal), number);
        assert_eq!(Refusal::try_from(number), Ok(refusal));
    }
    for number in (20..=255).chain([0]) {
        assert_eq!(Refusal::try_from(number), Err(NoRefusal(number)));
    }
}

#[test]
fn messages_start_with_the_number_and_differ() {
    let texts: Vec<String> = Refusal::ALL.iter().map(Refusal::to_string).collect();
    for (number, text) in (1..).zip(&texts) {
        let start = format!("refused {number}: ");
        assert!(
            text.starts_with(&start) && text.len() > start.len() + 10,
            "{text}"
        );
        let same = texts
            .iter()
            .filter(|other| other[start.len()..] == text[start.len()..]);
        assert_eq!(same.count(), 1, "{text}");
    }
    let error: Box<dyn Error> = Refusal::NotAssured.into();
    assert_eq!(error.to_string(), "refused 11: home is not assured");
    assert_eq!(NoRefusal(19).to_string(), "19 is no refusal's number");
}

#[test]
fn a_map_is_refused_exactly_when_the_calls_refuse_its_size() {
    let sides = (0..=SIDE + 2).chain([usize::MAX]);
    for (width, height) in sides
        .clone()
        .flat_map(|width| sides.clone().map(move |height| (width, height)))
    {
        let list = MarkersRef {
            width,
            height,
            ..eight(&[])
        };
        // An empty sheet is no map's: the calls refuse 1, or else 2.
        let refused = list.label(&mut []).unwrap_err();
        assert_eq!(
            Map::new(width, height).is_err(),
            refused == Refusal::BadSize
        );
    }
}

#[test]
fn a_bad_size_is_refused_1() {
    let slots = slots(&R);
    for (width, height) in BAD_SIZES {
        let list = MarkersRef {
            width,
            height,
            count: 9,
            ..eight(&slots)
        };
        all_refuse(list, &Lent::new(7, 0), Refusal::BadSize);
    }
}

#[test]
fn a_sheet_of_another_size_is_refused_2() {
    let slots = slots(&R);
    let list = MarkersRef {
        count: 9,
        ..eight(&slots)
    };
    for length in [0, 63, 65, 128, 65_536] {
        all_refuse(list, &Lent::new(length, 0), Refusal::BadSheet);
    }
}

/// One sheet alone is of another size: the askings that are lent it refuse 2.
#[test]
fn each_lent_sheet_counts() {
    let sheets: [(fn(&mut Lent), &[&str]); 9] = [
        (
            |lent| lent.region.push(0),
            &["region", "drive", "lines_drive"],
        ),
        (|lent| lent.east.push(0), &["measure"]),
        (|lent| lent.south.push(0), &["measure"]),
        (|lent| lent.west.push(0), &["measure"]),
        (|lent| lent.north.push(0), &["measure"]),
        // Numbers are counted: as many bytes as crossings are half a sheet.
        (|lent| lent.east.truncate(32), &["measure"]),
        (|lent| lent.south.truncate(32), &["measure"]),
        (|lent| lent.west.truncate(32), &["measure"]),
        (|lent| lent.north.truncate(32), &["measure"]),
    ];
    let slots = slots(&R);
    for (change, lent_to) in sheets {
        let mut lent = Lent::new(64, 64);
        change(&mut lent);
        for (name, ask) in ASKINGS {
            let mut after = lent.clone();
            let answer = ask(eight(&slots), at(0, 0), at(1, 0), &mut after);
            assert_eq!(
                answer == Err(Refusal::BadSheet),
                lent_to.contains(&name),
                "{name}"
            );
            assert_eq!(after == lent, lent_to.contains(&name), "{name}");
        }
    }
}

#[test]
fn a_bad_list_is_refused_3() {
    for (slots, count) in bad_lists() {
        let list = MarkersRef {
            count,
            ..eight(&slots)
        };
        all_refuse(list, &Lent::new(64, 0), Refusal::BadList);
    }
}

#[test]
fn a_place_off_the_map_is_refused_4() {
    let slots = slots(&R);
    let off = [at(8, 0), at(0, 8), at(usize::MAX, usize::MAX)];
    for (name, ask) in ASKINGS {
        // Label, sweeps and measure ask for no place, and distances only for the one.
        let ends = match name {
            "label" | "sweeps" | "measure" => continue,
            "distances" => off.map(|place| (at(0, 0), place)).to_vec(),
            _ => off
                .iter()
                .flat_map(|place| [(*place, at(4, 2)), (at(4, 2), *place)])
                .collect(),
        };
        for (one, other) in ends {
            let mut after = Lent::new(64, 0);
            assert_eq!(
                ask(eight(&slots), one, other, &mut after),
                Err(Refusal::BadPlace),
                "{name}"
            );
            assert_eq!(after, Lent::new(64, 0), "{name}");
        }
    }
}

/// A marker that is on a flat map, and off the tall one of the same size. The places asked for are
/// on the map each time.
#[test]
fn a_flat_map_is_not_a_tall_one() {
    let slots = slots(&[(8, 1)]);
    let flat = MarkersRef {
        slots: &slots,
        count: 1,
        width: 9,
        height: 2,
        cart: LOWEST,
    };
    let tall = MarkersRef {
        width: 2,
        height: 9,
        ..flat
    };
    for (name, ask) in ASKINGS {
        let mut lent = Lent::new(18, 18);
        assert_eq!(ask(flat, at(0, 0), at(7, 0), &mut lent), Ok(()), "{name}");
        assert_eq!(
            ask(tall, at(0, 0), at(0, 7), &mut lent),
            Err(Refusal::BadList),
            "{name}"
        );
    }
}

/// Each number by an owned list where one can reach it, and by a lent list otherwise.
#[test]
fn every_number_is_reached() {
    let mut markers = common::owned(&R);
    let (mut labels, mut chooser) = ([0; 64], grainbodkin::Chooser(0));
    let no_size = MarkersRef {
        width: 0,
        ..eight(&[])
    };
    let over = MarkersRef {
        count: 1,
        ..eight(&[])
    };
    let full = Markers::new(markers.map(), 0).enter(1, at(0, 0), TALLEST);
    let read = |file: &[u8]| Markers::read(file, 9).unwrap_err();
    let mut reached = vec![
        no_size.label(&mut labels).unwrap_err(),
        markers.lend(LOWEST).label(&mut labels[1..]).unwrap_err(),
        over.label(&mut labels).unwrap_err(),
        markers.distances(LOWEST, at(8, 0)).unwrap_err(),
        markers.enter(1, at(0, 0), TALLEST).unwrap_err(),
        markers.clear(4).unwrap_err(),
        full.unwrap_err(),
        markers.assured(LOWEST, at(4, 2), at(0, 0)).unwrap_err(),
        markers.region(LOWEST, at(0, 2), at(7, 2)).unwrap_err(),
        markers
            .drive_into(LOWEST, at(0, 0), at(1, 0), &mut [0], &mut chooser)
            .unwrap_err(),
        markers.hop(LOWEST, at(0, 2), at(4, 5)).unwrap_err(),
        read(b"P7"),
        read(b"P4 8"),
        read(b"P4 8 1 "),
        read(b"P4 8 1 .."),
    ];
    markers.enter(4, at(3, 2), TALLEST).unwrap();
    reached.push(markers.write(LOWEST).unwrap_err());
    markers.clear(4).unwrap();
    reached.push(markers.lend(LOWEST).write(&mut [0; 14]).unwrap_err());
    reached.push(grainbodkin::read_sheet(b"P5 1 1 9 .", &mut [0]).unwrap_err());
    let by_lines = markers.lines_drive(LOWEST, at(0, 2), at(7, 2), &mut chooser);
    reached.push(by_lines.unwrap_err());
    assert_eq!(reached, Refusal::ALL);
}

/// Whatever the numbers are, every asking answers or refuses, and so does writing. An asking can
/// succeed only where the map has as many crossings as the sheets have bytes, which is 1 by 64 and
/// 64 by 1, and the count is 0: R's rocks are off those maps.
#[test]
fn hostile_numbers_are_answered() {
    let numbers = [0, 1, 3, 64, 256, 257, 1 << 32, usize::MAX];
    let pairs = || {
        numbers
            .iter()
            .flat_map(|one| numbers.map(|other| (*one, other)))
    };
    let slots = slots(&R);
    let mut lent = Lent::new(64, 5);
    for (width, height) in pairs() {
        let size = Map::new(width, height);
        for (count, x) in pairs() {
            let list = MarkersRef {
                slots: &slots,
                count,
                width,
                height,
                cart: LOWEST,
            };
            let fits = count == 0 && size.is_ok_and(|map| map.crossings() == 64);
            for (name, ask) in ASKINGS {
                let answer = ask(list, at(x, 0), at(1, x), &mut lent);
                assert!(fits || answer.is_err(), "{name} {list:?} {x}");
            }
            let written = list.write(&mut lent.labels);
            assert_eq!(written == Err(Refusal::BadSize), size.is_err());
        }
    }
}
