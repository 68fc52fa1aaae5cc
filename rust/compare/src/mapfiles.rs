//! Random map files: made by the grammar part by part, so that each edit knows where it strikes;
//! and noise.
use crate::maps;
use crate::random::Random;
use independent::map::{Crossing, Map, SIDE};
use independent::markers::MOST;

/// A file in its parts.
#[derive(Clone, Debug, Default)]
pub struct Parts {
    pub letters: Vec<u8>,
    pub before_width: Vec<u8>,
    pub width: Vec<u8>,
    pub before_height: Vec<u8>,
    pub height: Vec<u8>,
    /// Of a picture: the largest value, and what stands before it.
    pub before_largest: Vec<u8>,
    pub largest: Vec<u8>,
    pub blank: Vec<u8>,
    pub raster: Vec<u8>,
    /// Whether the raster is plain, and where its last digit ends.
    pub plain: bool,
    pub last_digit: usize,
    /// Whether a raw raster's pad bits are noise.
    pub pads: bool,
    pub rocks: usize,
}

impl Parts {
    pub fn join(&self) -> Vec<u8> {
        [
            &self.letters,
            &self.before_width,
            &self.width,
            &self.before_height,
            &self.height,
            &self.before_largest,
            &self.largest,
            &self.blank,
            &self.raster,
        ]
        .into_iter()
        .flatten()
        .copied()
        .collect()
    }
}

pub const BLANKS: [u8; 4] = [b' ', b'\t', b'\r', b'\n'];

/// One or more blanks and comments, at least one a blank.
pub fn separator(random: &mut Random) -> Vec<u8> {
    if random.percent(50) {
        return vec![random.pick(&BLANKS)];
    }
    let items = random.between(1, 5);
    let must = random.below(items);
    let mut bytes = Vec::new();
    for i in 0..items {
        if i == must || random.percent(50) {
            bytes.push(random.pick(&BLANKS));
        } else {
            bytes.extend(comment(random));
        }
    }
    bytes
}

fn comment(random: &mut Random) -> Vec<u8> {
    let mut bytes = vec![b'#'];
    for _ in 0..random.below(12) {
        let byte = random.byte();
        bytes.push(if BLANKS[2..].contains(&byte) {
            b'1'
        } else {
            byte
        });
    }
    bytes.push(random.pick(&BLANKS[2..]));
    bytes
}

/// The number with up to as many leading zeros as nine digits leave room for.
pub fn number(random: &mut Random, value: usize) -> Vec<u8> {
    let digits = value.to_string();
    let zeros = if random.percent(20) {
        random.below(10 - digits.len())
    } else {
        0
    };
    format!("{}{digits}", "0".repeat(zeros)).into_bytes()
}

/// A file that is against no rule, of any map: plain or raw.
pub fn parts(random: &mut Random, map: Map, rocks: &[Crossing]) -> Parts {
    let plain = random.percent(50);
    parts_as(random, map, rocks, plain)
}

/// The same, plain or raw as is asked.
pub fn parts_as(random: &mut Random, map: Map, rocks: &[Crossing], plain: bool) -> Parts {
    let mut parts = Parts {
        letters: if plain { *b"P1" } else { *b"P4" }.to_vec(),
        before_width: separator(random),
        width: number(random, map.width),
        before_height: separator(random),
        height: number(random, map.height),
        blank: vec![random.pick(&BLANKS)],
        plain,
        rocks: rocks.len(),
        ..Parts::default()
    };
    let mut marks = vec![vec![false; map.width]; map.height];
    for c in rocks {
        marks[map.height - 1 - c.y][c.x] = true;
    }
    if plain {
        plain_raster(random, &marks, &mut parts);
    } else {
        raw_raster(random, &marks, &mut parts);
    }
    parts
}

/// Digits with blanks before, between and after them: none, a line end after each row, or anywhere.
fn plain_raster(random: &mut Random, marks: &[Vec<bool>], parts: &mut Parts) {
    let style = random.below(3);
    for row in marks {
        for &rock in row {
            while style == 2 && random.percent(20) {
                parts.raster.push(random.pick(&BLANKS));
            }
            parts.raster.push(if rock { b'1' } else { b'0' });
            parts.last_digit = parts.raster.len();
        }
        if style == 1 {
            parts.raster.push(b'\n');
        }
    }
    while style > 0 && random.percent(50) {
        parts.raster.push(random.pick(&BLANKS));
    }
}

/// Packed rows; now and then with pad bits set.
fn raw_raster(random: &mut Random, marks: &[Vec<bool>], parts: &mut Parts) {
    parts.pads = random.percent(40);
    for row in marks {
        for eight in row.chunks(8) {
            let mut byte = if parts.pads { random.byte() } else { 0 };
            for (i, &rock) in eight.iter().enumerate() {
                let bit = 0x80 >> i;
                byte = if rock { byte | bit } else { byte & !bit };
            }
            parts.raster.push(byte);
        }
    }
}

/// A map file or noise: the names of what it is made of, its bytes, and how many rocks it had
/// before it was damaged.
pub fn file(random: &mut Random) -> (Vec<&'static str>, Vec<u8>, usize) {
    if random.percent(8) {
        let (name, make) = random.pick(&NOISES);
        return (vec![name], make(random), 2);
    }
    let (size, shape, map, rocks) = if random.percent(1) {
        many_rocks(random)
    } else {
        let (size, map) = maps::size(random);
        let (shape, rocks) = maps::rocks(random, map);
        (size, shape, map, rocks)
    };
    let mut parts = parts(random, map, &rocks);
    let kind = if parts.plain {
        "plain file"
    } else {
        "raw file"
    };
    let mut notes = vec![kind, size, shape];
    notes.extend(parts.pads.then_some("pad bits of noise"));
    let edits = random.pick(&[0, 0, 1, 1, 1, 2]);
    for _ in 0..edits {
        let (name, edit) = random.pick(&crate::edits::EDITS);
        edit(random, &mut parts);
        notes.push(name);
    }
    let mut bytes = parts.join();
    if random.percent(15) {
        let (name, edit) = random.pick(&crate::edits::BYTE_EDITS);
        edit(random, &mut bytes);
        notes.push(name);
    }
    (notes, bytes, parts.rocks)
}

/// A map with about as many rocks as a list may hold, or with many more.
fn many_rocks(random: &mut Random) -> (&'static str, &'static str, Map, Vec<Crossing>) {
    let map = Map::new(SIDE, random.between(60, SIDE));
    let mut rocks: Vec<_> = map.crossings().collect();
    for i in (1..rocks.len()).rev() {
        rocks.swap(i, random.below(i + 1));
    }
    let any = random.between(MOST, rocks.len());
    rocks.truncate(random.pick(&[MOST - 1, MOST, MOST, MOST + 1, MOST + 1, any]));
    ("256 by many", "about 8,192 rocks or more", map, rocks)
}

/// Noise by its name.
type Noise = (&'static str, fn(&mut Random) -> Vec<u8>);

pub const NOISES: [Noise; 5] = [
    ("no file at all", |_| Vec::new()),
    ("noise", |r| {
        let length = r.below(60);
        r.bytes(length)
    }),
    ("letters and noise", |r| {
        let length = r.below(60);
        let letters = r.pick(&[b"P1", b"P4", b"P2", b"P5", b"p1", b"P "]);
        [&letters[..], &r.bytes(length)].concat()
    }),
    ("letters and bytes of headers", |r| {
        let letters = r.pick(&[b"P1", b"P4"]);
        let more = (0..r.below(30)).map(|_| r.pick(b"  \n\r\t##01238"));
        let more: Vec<u8> = more.collect();
        [&letters[..], &more].concat()
    }),
    ("letters cut short", |r| {
        r.pick(&[&b"P"[..], b"P1", b"P4", b"Q1", b"1"]).to_vec()
    }),
];
