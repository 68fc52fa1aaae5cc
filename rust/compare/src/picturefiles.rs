//! Random pictures of both kinds: made by the grammar part by part, and then now and then damaged
//! as map files are, or in their own ways.
use crate::mapfiles::{number, separator, Parts, BLANKS};
use crate::random::Random;
use independent::map::Map;

/// Ways to harm a picture alone, each by its name.
type Harm = (&'static str, fn(&mut Random, &mut Parts));

pub const PICTURE_HARMS: [Harm; 10] = [
    ("a largest value of 0", |_, parts| {
        parts.largest = b"0".to_vec()
    }),
    ("a largest value of 254", |_, parts| {
        parts.largest = b"254".to_vec()
    }),
    ("a largest value of 256", |_, parts| {
        parts.largest = b"256".to_vec()
    }),
    ("a largest value near 65535", |r, parts| {
        parts.largest = r.pick(&[b"65534", b"65536", b"65537"]).to_vec()
    }),
    ("a largest value that sixteen bits cut", |r, parts| {
        parts.largest = r.pick(&[b"065791", b"131071"]).to_vec()
    }),
    ("the other kind's largest value", |_, parts| {
        let old = parts.largest.ends_with(b"65535");
        parts.largest = if old { &b"255"[..] } else { b"65535" }.to_vec()
    }),
    ("a largest value of ten digits", |r, parts| {
        parts.largest = r.pick(&[b"0000000255", b"0000065535"]).to_vec()
    }),
    ("no largest value", |_, parts| {
        parts.before_largest.clear();
        parts.largest.clear();
    }),
    ("a comment after the largest value", |_, parts| {
        parts.blank = b"#a\n".to_vec()
    }),
    ("letters of another format", |r, parts| {
        parts.letters = r.pick(&[b"P2", b"P4", b"P6", b"P1", b"p5"]).to_vec()
    }),
];

pub const OLD: &str = "picture of one byte a crossing";
pub const NEW: &str = "picture of two bytes a crossing";

/// A picture of either kind that is against no rule. A byte of 255 is frequent: in an old picture
/// it becomes the mark, and in a new one it does not.
fn parts(random: &mut Random, map: Map, old: bool) -> Parts {
    let bytes = map.width * map.height * if old { 1 } else { 2 };
    let mut byte = || {
        let any = random.byte();
        random.pick(&[any, any, any, any, 255, 254, 0])
    };
    let raster = (0..bytes).map(|_| byte()).collect();
    let largest = if old { 255 } else { 65_535 };
    Parts {
        letters: b"P5".to_vec(),
        before_width: separator(random),
        width: number(random, map.width),
        before_height: separator(random),
        height: number(random, map.height),
        before_largest: separator(random),
        largest: number(random, largest),
        blank: vec![random.pick(&BLANKS)],
        raster,
        ..Parts::default()
    }
}

/// A picture or noise: the names of what it is made of, and its bytes.
pub fn file(random: &mut Random, map: Map) -> (Vec<&'static str>, Vec<u8>) {
    let old = random.percent(50);
    let mut parts = parts(random, map, old);
    let mut notes = vec![if old { OLD } else { NEW }];
    for _ in 0..random.pick(&[0, 0, 0, 1, 1, 2]) {
        let (name, harm) = random.pick(&PICTURE_HARMS);
        harm(random, &mut parts);
        notes.push(name);
    }
    if random.percent(25) {
        let (name, edit) = random.pick(&crate::edits::EDITS);
        edit(random, &mut parts);
        notes.push(name);
    }
    let mut bytes = parts.join();
    if random.percent(25) {
        let (name, edit) = random.pick(&crate::edits::BYTE_EDITS);
        edit(random, &mut bytes);
        notes.push(name);
    }
    (notes, bytes)
}
