//! Map files: reading P1 and P4, writing P4, their refusals, and the round trip.

mod common;

use std::collections::HashSet;

use common::{at, bad_lists, eight, rock, slots, BAD_SIZES, LOWEST, R};
use grainbodkin::{
    Map, Marker, Markers, MarkersMut, MarkersRef, Place, Refusal, LONGEST_FILE, MARKERS, SIDE,
    TALLEST,
};

const OTHER: Marker = rock(500, 600, 700);

#[test]
fn rocks_become_markers_in_raster_order() {
    let three = [rock(1, 1, 1), rock(2, 0, 0), rock(3, 2, 0)];
    let files: [&[u8]; 4] = [
        b"P1 3 2 010101",
        b"P1\n#a comment\n3\t002\r\n0 1 0\n1 0 1\n",
        b"P4 3 2\n\x40\xa0",
        b"P4 #\n 3 2 \x5f\xbf", // pad bits are ignored
    ];
    for file in files {
        let mut slots = [OTHER; 5];
        let list = MarkersMut::read(file, &mut slots).unwrap();
        assert_eq!((list.width, list.height, list.count), (3, 2, 3));
        assert_eq!(slots[..3], three);
        assert_eq!(slots[3..], [OTHER; 2]);
        let markers = Markers::read(file, 3).unwrap();
        assert_eq!(
            (markers.as_slice(), markers.map()),
            (&three[..], Map::new(3, 2).unwrap())
        );
    }
}

#[test]
fn refused_files_change_no_slot() {
    let files: [(&[u8], Refusal); 20] = [
        (b"", Refusal::BadLetters),
        (b"P", Refusal::BadLetters),
        (b"P2 3 2 010101", Refusal::BadLetters),
        (b"P1", Refusal::BadHeader),
        (b"P13 2 010101", Refusal::BadHeader),
        (b"P1#\n3 2 010101", Refusal::BadHeader),
        (b"P1 1234567890 2 010101", Refusal::BadHeader),
        (b"P4 3 2", Refusal::BadHeader),
        (b"P4 257 2x", Refusal::BadHeader), // a header's fault comes before a size
        (b"P1 0 2 x", Refusal::BadSize),    // a size comes before the raster's fault
        (b"P4 3 257 ", Refusal::BadSize),
        (b"P1 3 2 01 2 101", Refusal::BadHeader),
        (b"P1 3 2 01#\n0101", Refusal::BadHeader),
        (b"P1 3 2 01010", Refusal::ShortRaster),
        (b"P1 3 2 ", Refusal::ShortRaster),
        (b"P4 3 2 \xff", Refusal::ShortRaster),
        (b"P1 3 2 111111 1", Refusal::LongRaster), // before 7
        (b"P4 3 2 \xff\xff\n", Refusal::LongRaster),
        (b"P1 3 2 111111", Refusal::NoSlot),
        (b"P4 3 2 \xff\xff", Refusal::NoSlot),
    ];
    for (file, refusal) in files {
        let mut slots = [OTHER; 5];
        assert_eq!(
            MarkersMut::read(file, &mut slots).unwrap_err(),
            refusal,
            "{}",
            file.escape_ascii()
        );
        assert_eq!(slots, [OTHER; 5]);
        assert_eq!(Markers::read(file, 5), Err(refusal));
    }
}

/// A map may have more rocks than a list may hold: 7, whatever the room.
#[test]
fn more_rocks_than_markers_are_refused_7() {
    let full = [b"P4 256 256 ".as_slice(), &[0xff; 8192]].concat();
    let mut slots = vec![OTHER; 65_536];
    let refused = MarkersMut::read(&full, &mut slots).unwrap_err();
    assert_eq!(refused, Refusal::NoSlot);
    assert_eq!(slots, vec![OTHER; 65_536]);
    assert_eq!(Markers::read(&full, MARKERS), Err(Refusal::NoSlot));
    // The raster's faults come first.
    let short = Markers::read(&full[..full.len() - 1], MARKERS);
    assert_eq!(short, Err(Refusal::ShortRaster));
    // 32 rows of rocks are as many as a list may hold, and one more is not.
    let mut most = full;
    most[11 + 1024..].fill(0);
    let markers = Markers::read(&most, MARKERS).unwrap();
    assert_eq!(markers.as_slice().last(), Some(&rock(8192, 255, 224)));
    assert_eq!(markers.write(LOWEST).unwrap()[11..], most[11..]);
    most[11 + 1024] = 0x80;
    assert_eq!(Markers::read(&most, MARKERS), Err(Refusal::NoSlot));
}

#[test]
fn writing_fills_the_front_and_leaves_the_rest() {
    let slots = slots(&[(0, 0), (8, 1), (9, 2)]);
    let list = MarkersRef {
        slots: &slots,
        count: 3,
        width: 10,
        height: 3,
        cart: LOWEST,
    };
    let mut out = [b'-'; 16];
    assert_eq!(list.write(&mut out), Ok(14));
    assert_eq!(&out, b"P4\n10 3\n\x00\x40\x00\x80\x80\x00--");
}

#[test]
fn refusals_of_writing_change_no_byte() {
    let refused = |list: MarkersRef<'_>, room: usize| {
        let mut out = vec![b'-'; room];
        let refusal = list.write(&mut out).unwrap_err();
        assert_eq!(out, vec![b'-'; room]);
        refusal
    };
    let r = slots(&R);
    for (width, height) in BAD_SIZES {
        let list = MarkersRef {
            width,
            height,
            count: 9,
            ..eight(&r)
        };
        assert_eq!(refused(list, 0), Refusal::BadSize);
    }
    for (slots, count) in bad_lists() {
        assert_eq!(
            refused(
                MarkersRef {
                    count,
                    ..eight(&slots)
                },
                0
            ),
            Refusal::BadList
        );
    }
    let shared = slots(&[(3, 2), (4, 3), (3, 2)]);
    assert_eq!(refused(eight(&shared), 0), Refusal::SharedCrossing);
    assert_eq!(refused(eight(&shared), 600), Refusal::SharedCrossing);
    for room in 0..15 {
        assert_eq!(refused(eight(&r), room), Refusal::ShortOutput);
    }
    assert_eq!(eight(&r).write(&mut [0; 15]), Ok(15));
}

#[test]
fn an_owned_list_is_not_written_with_two_markers_on_one_crossing() {
    let mut markers = Markers::read(b"P1 2 1 11", 3).unwrap();
    markers.enter(9, at(0, 0), TALLEST).unwrap();
    assert_eq!(markers.write(LOWEST), Err(Refusal::SharedCrossing));
    markers.clear(1).unwrap();
    assert_eq!(markers.write(LOWEST).unwrap(), b"P4\n2 1\n\xc0");
}

/// The crossings with a marker, each once.
fn rocks(markers: &Markers) -> HashSet<Place> {
    markers.iter().map(|marker| marker.place()).collect()
}

#[test]
fn every_size_is_written_in_its_file_length_and_read_again() {
    // Every width with some heights, and every height with some widths: all bytes and digits.
    let some = [1, 2, 9, 10, 99, 100, SIDE];
    let sides = (1..=SIDE).flat_map(|side| some.map(|other| [(side, other), (other, side)]));
    for map in sides
        .flatten()
        .map(|(width, height)| Map::new(width, height).unwrap())
    {
        let mut markers = Markers::new(map, 2);
        let corners = HashSet::from([at(0, 0), at(map.width() - 1, map.height() - 1)]);
        for (id, corner) in (1..).zip(&corners) {
            markers.enter(id, *corner, TALLEST).unwrap();
        }
        let mut out = vec![0; map.file_len()];
        assert_eq!(markers.lend(LOWEST).write(&mut out), Ok(map.file_len()));
        assert_eq!(markers.write(LOWEST).unwrap(), out);
        let again = Markers::read(&out, 2).unwrap();
        assert_eq!((again.map(), rocks(&again)), (map, corners));
        out.pop();
        assert_eq!(
            markers.lend(LOWEST).write(&mut out),
            Err(Refusal::ShortOutput)
        );
    }
    assert_eq!(LONGEST_FILE, "P4\n256 256\n".len() + 256 * 32);
}

#[test]
fn a_written_map_is_read_with_the_same_crossings() {
    // Ids 1, 2, 3 in raster order, so the list itself comes back.
    let markers = Markers::read(b"P1 9 2 100000001 010000000", 3).unwrap();
    let again = Markers::read(&markers.write(LOWEST).unwrap(), 3).unwrap();
    assert_eq!(again, markers);
    // Other ids: the crossings come back.
    let mut other = Markers::new(markers.map(), 3);
    for (id, marker) in [9, 4, 7].into_iter().zip(&markers) {
        other.enter(id, marker.place(), TALLEST).unwrap();
    }
    assert_ne!(other, markers);
    assert_eq!(Markers::read(&other.write(LOWEST).unwrap(), 3), Ok(markers));
}
