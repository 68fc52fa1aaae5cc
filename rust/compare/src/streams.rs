//! Random inputs for the depots program: raw maps one after another, whole, and with a bad end.
use crate::edits::{BYTE_EDITS, EDITS};
use crate::mapfiles::{parts_as, Parts, BLANKS, NOISES};
use crate::maps;
use crate::program::whole;
use crate::random::{Random, Weighted};
use independent::map::{Map, SIDE};
use independent::text::LONGEST;

/// An input by its name.
pub type Input = (&'static str, fn(&mut Random) -> Vec<u8>);

/// Inputs of their own, each given whole and in pieces.
pub const INPUTS: [Input; 31] = [
    ("no bytes", |_| Vec::new()),
    ("one LF", |_| b"\n".to_vec()),
    ("one P", |_| b"P".to_vec()),
    ("P1", |_| b"P1\n2 1\n01\n".to_vec()),
    ("a map and a half", |_| b"P4 2 2 \0\0P4 9 2 \0\0\0".to_vec()),
    ("a map and a byte", |_| b"P4 2 2 \0\0\n".to_vec()),
    ("a map and bytes that are no map", |_| {
        b"P4 2 2 \0\0P1 1 1 0".to_vec()
    }),
    ("1 by 1 without a rock", |_| b"P4\n1 1\n\0".to_vec()),
    ("1 by 1 with a rock", |_| b"P4\n1 1\n\x80".to_vec()),
    ("1 by 1 with pad bits", |_| b"P4\n1 1\n\x7f".to_vec()),
    ("a depot on a rock", |_| b"P4 3 3 \0\0\x80".to_vec()),
    ("a depot shut", |_| b"P4 4 4 \0\0\x80\x40".to_vec()),
    ("a comment of 70,000 bytes", |_| {
        commented(70_000, b"P4 2 2 \0\0")
    }),
    ("a map of 65,535 bytes", |_| bounded(LONGEST - 1)),
    ("a map of 65,536 bytes", |_| bounded(LONGEST)),
    ("a map of 65,537 bytes", |_| bounded(LONGEST + 1)),
    ("two maps of 65,536 bytes", |_| bounded(LONGEST).repeat(2)),
    ("12 however long", |r| {
        [b"Q4".to_vec(), r.bytes(LONGEST)].concat()
    }),
    ("13 at byte 65,536", |_| filled(LONGEST - 1, b"xP4")),
    ("13 at byte 65,537", |_| filled(LONGEST, b"xP4")),
    ("1 at byte 65,536", |_| filled(LONGEST - 4, b"1 0 P4")),
    ("1 at byte 65,537", |_| filled(LONGEST - 3, b"1 0 P4")),
    ("65,535 maps", |r| ones(r, 65_535)),
    ("65,536 maps", |r| ones(r, 65_536)),
    ("65,535 maps and a byte", |r| {
        [ones(r, 65_535), b"x".to_vec()].concat()
    }),
    ("64 by 64, packed", |r| {
        let mut maps = Vec::new();
        for _ in 0..130 {
            maps.extend(map(r, Map::new(64, 64)).join());
        }
        maps
    }),
    ("256 by 256, packed", |r| {
        let mut maps = Vec::new();
        for _ in 0..12 {
            let few: Vec<_> = (0..r.below(600))
                .map(|_| maps::any(r, Map::new(SIDE, SIDE)))
                .collect();
            maps.extend(parts_as(r, Map::new(SIDE, SIDE), &few, false).join());
        }
        maps
    }),
    ("8,192 rocks, and another map", |_| {
        [whole(8_192), b"P4 2 2 \0\0".to_vec()].concat()
    }),
    ("a map, 8,193 rocks, and another map", |_| {
        [b"P4 2 2 \0\0".to_vec(), whole(8_193), whole(0)].concat()
    }),
    ("a full map, and bytes that are no map", |_| {
        [whole(65_536), b"x".to_vec()].concat()
    }),
    ("a full map, but for a byte", |_| {
        whole(65_536)[..8_202].to_vec()
    }),
];

/// A comment of so many bytes in a map's header, and another map after it.
fn commented(bytes: usize, after: &[u8]) -> Vec<u8> {
    let comment = "c".repeat(bytes - 2);
    let map = format!("P4 #{comment}\n3 2 \0\0");
    [map.as_bytes(), after].concat()
}

/// A map of so many bytes, and another after it.
fn bounded(bytes: usize) -> Vec<u8> {
    commented(bytes - b"P4 3 2 \0\0".len(), b"P4 2 2 \0\0")
}

/// P4, blanks up to so many bytes, and an end.
fn filled(length: usize, end: &[u8]) -> Vec<u8> {
    let mut bytes = b"P4".to_vec();
    bytes.resize(length, b' ');
    bytes.extend(end);
    bytes
}

/// So many maps 1 by 1.
fn ones(random: &mut Random, maps: usize) -> Vec<u8> {
    let mut bytes = Vec::new();
    for _ in 0..maps {
        bytes.extend(b"P4 1 1 ");
        bytes.push(random.byte());
    }
    bytes
}

/// A raw map of this size and any shape.
fn map(random: &mut Random, size: Map) -> Parts {
    let (_, rocks) = maps::rocks(random, size);
    parts_as(random, size, &rocks, false)
}

/// A raw map of any size and shape; now and then with a comment of some thousand bytes.
fn any_map(random: &mut Random, comments: usize) -> Parts {
    let (_, size) = maps::size(random);
    let mut parts = map(random, size);
    if random.percent(comments) {
        let length = random.below(20_000);
        lengthen(random, &mut parts, length);
    }
    parts
}

/// Puts a comment with so many bytes more into one of the separators.
fn lengthen(random: &mut Random, parts: &mut Parts, more: usize) {
    let separator = if random.percent(50) {
        &mut parts.before_width
    } else {
        &mut parts.before_height
    };
    if let Some(filler) = more.checked_sub(2) {
        separator.push(b'#');
        separator.extend(std::iter::repeat_n(random.pick(b"c #1"), filler));
        separator.push(random.pick(&BLANKS[2..]));
    }
}

/// A way for a stream to end.
type Ending = Weighted<fn(&mut Random) -> Vec<u8>>;

pub const ENDINGS: [Ending; 9] = [
    ("ends with its last map", 30, |_| Vec::new()),
    ("ends with a damaged map", 30, damaged),
    ("goes on after a damaged map", 25, |r| {
        let mut bytes = damaged(r);
        for _ in 0..r.between(1, 3) {
            bytes.extend(any_map(r, 0).join());
        }
        bytes
    }),
    ("ends within a map", 25, |r| {
        let mut bytes = any_map(r, 0).join();
        bytes.truncate(r.below(bytes.len()));
        bytes
    }),
    ("has a map of about 8,192 rocks", 5, |r| {
        let rocks = r.between(8_190, 8_195);
        [whole(rocks), any_map(r, 0).join()].concat()
    }),
    ("ends with noise", 10, |r| {
        let (_, make) = r.pick(&NOISES);
        make(r)
    }),
    ("ends with a plain map", 5, |r| {
        let (_, rocks) = maps::rocks(r, Map::new(5, 4));
        parts_as(r, Map::new(5, 4), &rocks, true).join()
    }),
    ("has a map of about 65,536 bytes", 10, |r| {
        let mut parts = any_map(r, 0);
        let own = parts.join().len();
        let length = r.between(LONGEST - 3, LONGEST + 3);
        lengthen(r, &mut parts, length - own);
        [parts.join(), any_map(r, 0).join()].concat()
    }),
    ("has a header at about 65,536 bytes", 15, |r| {
        // Whether the filler is a comment, the bytes at the bound decide what can be said of it.
        let start = r.pick(&[&b"P4 "[..], b"P4#", b"P4 1", b"P4 0 ", b"P4 64 #"]);
        let mut bytes = start.to_vec();
        bytes.resize(r.between(LONGEST - 10, LONGEST + 1), b' ');
        bytes.extend((0..r.between(1, 14)).map(|_| r.pick(b"  \n\n#001x")));
        [bytes, any_map(r, 0).join()].concat()
    }),
];

/// A map with one or two edits of its parts, or one of its bytes.
fn damaged(random: &mut Random) -> Vec<u8> {
    let mut parts = any_map(random, 0);
    if random.percent(20) {
        let mut bytes = parts.join();
        let (_, edit) = random.pick(&BYTE_EDITS);
        edit(random, &mut bytes);
        return bytes;
    }
    for _ in 0..random.between(1, 2) {
        let (_, edit) = random.pick(&EDITS);
        edit(random, &mut parts);
    }
    parts.join()
}

/// Some maps and an ending, with the ending's name.
pub fn stream(random: &mut Random) -> (&'static str, Vec<u8>) {
    let most = random.pick(&[1, 10, 80, 80, 80]);
    let comments = random.pick(&[0, 0, 0, 0, 20]);
    let mut bytes = Vec::new();
    for _ in 0..random.between(most / 2, most) {
        bytes.extend(any_map(random, comments).join());
    }
    let (name, end) = random.by_weight(&ENDINGS);
    bytes.extend(end(random));
    (name, bytes)
}
