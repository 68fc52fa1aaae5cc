//! Map files: the grammar's edges, the order of its refusals, and the round trip.
use crate::common::*;
use independent::files::{picture, raw_file, read, write};
use independent::map::{Crossings, Map};
use independent::markers::Marker;

fn refusal(file: &[u8]) -> u8 {
    match picture(file) {
        Ok(_) => 0,
        Err(number) => number,
    }
}

#[test]
fn letters() {
    for file in [&b""[..], b"P", b"p1", b"P2", b"P3", b"P5", b" P1 1 1 0"] {
        assert_eq!(refusal(file), 12, "{file:?}");
    }
    assert_eq!(refusal(b"P1"), 13);
    assert_eq!(refusal(b"P4"), 13);
}

#[test]
fn separators_and_comments() {
    for header in [
        "P1 1 1 ",
        "P1\t1\r1\n",
        "P1 \t\r\n1\r\n1 ",
        "P1\n#c\n1 1\n",
        "P1 #c\r1 1\n",
        "P1#c\n 1 1\n",
        "P1#c\r\n1 1\n",
        "P1 1#c\n 1\n",
        "P1 1 #c\n#d#\r1\n",
        "P1 #\n##\n1 1\n",
        "P1 000000001 001 ",
    ] {
        assert_eq!(refusal(format!("{header}0").as_bytes()), 0, "{header:?}");
    }
    for header in [
        "P11 1 ",
        "P1#c\n1 1\n",
        "P1 1#c\n1\n",
        "P1 1 1#c\n",
        "P1 1 1",
        "P1 1 1x",
        "P1 1\x0b1 ",
        "P1 1\x0c1 ",
        "P1 #never ends",
        "P1 1 #never ends",
        "P1 0000000001 1 ",
        "P1 1 0000000001 ",
        "P1 -1 1 ",
        "P1 +1 1 ",
        "P1 1,1 ",
        "P1 ",
        "P1 1",
        "P1 1 ",
    ] {
        assert_eq!(refusal(header.as_bytes()), 13, "{header:?}");
    }
}

#[test]
fn the_header_comes_before_sizes_and_these_before_rasters() {
    assert_eq!(refusal(b"P1 257 1"), 13);
    assert_eq!(refusal(b"P1 257 1 "), 1);
    assert_eq!(refusal(b"P1 0 1 x"), 1);
    assert_eq!(refusal(b"P4 1 0 "), 1);
    assert_eq!(refusal(b"P4 999999999 999999999 "), 1);
    assert_eq!(refusal(b"P4 256 256 "), 14);
}

#[test]
fn plain_rasters() {
    assert_eq!(refusal(b"P1 2 1 01"), 0);
    assert_eq!(refusal(b"P1 2 1  0\r\n\t1 \n"), 0);
    assert_eq!(refusal(b"P1 2 1 "), 14);
    assert_eq!(refusal(b"P1 2 1 0 \n"), 14);
    assert_eq!(refusal(b"P1 2 1 2"), 13);
    assert_eq!(refusal(b"P1 2 1 0x"), 13);
    assert_eq!(refusal(b"P1 2 1 0x1"), 13);
    assert_eq!(refusal(b"P1 2 1 0#c\n1"), 13);
    assert_eq!(refusal(b"P1 2 1 01x"), 15);
    assert_eq!(refusal(b"P1 2 1 01 0"), 15);
    assert_eq!(refusal(b"P1 2 1 01\n#c\n"), 15);
}

#[test]
fn raw_rasters() {
    assert_eq!(refusal(b"P4 9 1 \xff"), 14);
    assert_eq!(refusal(b"P4 9 1 \xff\xff\n"), 15);
    // Right after the one blank: a second blank is a raster byte.
    let map = picture(b"P4 8 1\n\x20").unwrap();
    assert_eq!(map.rocks, [at(2, 0)]);
    let map = picture(b"P4 9 2\n\x80\xff\x01\x00").unwrap();
    assert_eq!(map.rocks, [at(0, 1), at(8, 1), at(7, 0)]);
}

#[test]
fn no_slot_comes_last_and_other_slots_stay() {
    let old = Marker {
        id: 9,
        x: 900,
        y: 901,
        height: 902,
    };
    let three = b"P1 3 1 111";
    let refused = read(three, &[old; 2]);
    assert_eq!((refused.refusal, refused.width, refused.count), (7, 0, 0));
    assert_eq!(refused.list, [old; 2]);
    assert_eq!(read(b"P1 3 1 111x", &[old; 2]).refusal, 15);
    let done = read(three, &[old; 5]);
    assert_eq!((done.refusal, done.count), (0, 3));
    assert_eq!(done.list[3..], [old; 2]);
    assert_eq!(read(b"P1 3 1 000", &[]).refusal, 0);
}

#[test]
fn writing() {
    let list = markers(&[(0, 0), (8, 1), (0, 0)]);
    let map = Map::new(9, 2);
    let shared = write(&list, 3, map, 0, &[OLD; 3]);
    assert_eq!((shared.refusal, shared.bytes), (16, 0));
    let short = write(&list, 2, map, 0, &[OLD; 10]);
    assert_eq!((short.refusal, short.out), (17, vec![OLD; 10]));
    let exact = write(&list, 2, map, 0, &[OLD; 11]);
    assert_eq!(exact.out, b"P4\n9 2\n\x00\x80\x80\x00");
    let long = write(&list, 2, map, 0, &[OLD; 13]);
    assert_eq!((long.bytes, &long.out[11..]), (11, &[OLD; 2][..]));
}

#[test]
fn a_written_map_is_read_with_the_same_crossings() {
    for (width, height) in [
        (1, 1),
        (7, 3),
        (8, 8),
        (9, 5),
        (256, 256),
        (1, 256),
        (256, 1),
    ] {
        let map = Map::new(width, height);
        let rocks: Crossings = map
            .crossings()
            .filter(|c| (c.x * 7 + c.y * 3) % 5 == 0)
            .collect();
        let read = picture(&raw_file(map, &rocks)).unwrap();
        assert_eq!(read.map, map);
        assert_eq!(read.rocks.iter().copied().collect::<Crossings>(), rocks);
    }
}
