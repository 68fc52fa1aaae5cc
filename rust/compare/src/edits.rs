//! Edits that damage a map file, each by its name. Not every edit makes a file that is refused.
use crate::mapfiles::Parts;
use crate::random::Random;

/// An edit that knows the file's parts.
type Edit = (&'static str, fn(&mut Random, &mut Parts));

/// An edit of the bytes alone.
type ByteEdit = (&'static str, fn(&mut Random, &mut Vec<u8>));

/// Bytes that are neither digit 0, 1 nor blank, with those that look most like them.
const FOREIGN: [u8; 12] = [
    b'2', b'9', b'#', b'x', b'/', b':', b',', 0, 0x0B, 0x0C, 0x80, 0xFF,
];

pub const BYTE_EDITS: [ByteEdit; 4] = [
    ("a byte changed", |r, file| {
        if !file.is_empty() {
            let at = r.below(file.len());
            file[at] = if r.percent(50) {
                r.byte()
            } else {
                r.pick(b"01 #\n\r9")
            };
        }
    }),
    ("a byte dropped", |r, file| {
        if !file.is_empty() {
            file.remove(r.below(file.len()));
        }
    }),
    ("a byte doubled", |r, file| {
        if !file.is_empty() {
            let at = r.below(file.len());
            file.insert(at, file[at]);
        }
    }),
    ("cut", |r, file| file.truncate(r.below(file.len() + 1))),
];

pub const EDITS: [Edit; 21] = [
    ("other letters", |r, parts| {
        parts.letters = r
            .pick(&[b"P2", b"P3", b"P5", b"P0", b"p4", b"1P", b"\0\0"])
            .to_vec();
    }),
    ("letters exchanged", |_, parts| {
        parts.letters = if parts.plain { *b"P4" } else { *b"P1" }.to_vec();
    }),
    ("a header byte changed", |r, parts| {
        let byte = r.pick(b"#x 0\n\r\t\x0b-+");
        let part = header_part(r, parts);
        if let Some(at) = part.len().checked_sub(1) {
            part[r.between(0, at)] = byte;
        }
    }),
    ("a header part dropped", |r, parts| {
        header_part(r, parts).clear()
    }),
    ("a header part doubled", |r, parts| {
        let part = header_part(r, parts);
        part.extend_from_within(..);
    }),
    ("cut in the header", |r, parts| {
        parts.raster.clear();
        parts.blank.clear();
        match r.below(4) {
            0 => parts.height.clear(),
            1 => {
                parts.height.clear();
                parts.before_height.clear();
            }
            2 => {
                parts.height.clear();
                parts.before_height.clear();
                parts.width.clear();
            }
            _ => {}
        }
    }),
    ("a comment that never ends", |r, parts| {
        let end = b"#comment without an end 1 1 0".to_vec();
        if r.percent(50) {
            parts.before_width.extend(end);
            parts.width.clear();
            parts.before_height.clear();
        } else {
            parts.before_height.extend(end);
        }
        parts.height.clear();
        parts.blank.clear();
        parts.raster.clear();
    }),
    ("a separator of comments alone", |r, parts| {
        let comments: [&[u8]; 4] = [b"#\n", b"#a\r", b"#a\n#b\n", b"#a\r#\n##\r"];
        let only = r.pick(&comments).to_vec();
        *separator(r, parts) = only;
    }),
    ("comments before or after blanks", |r, parts| {
        let mixed: [&[u8]; 5] = [b"#\n ", b" #\n", b"\n#a\r#b\n", b"#a\r\n", b"##\n#\r\t#\n"];
        let mixed = r.pick(&mixed).to_vec();
        *separator(r, parts) = mixed;
    }),
    ("many comments", |r, parts| {
        let many = b"#\n#c\r ".repeat(r.between(1, 300));
        *separator(r, parts) = many;
    }),
    ("ten digits", |r, parts| {
        let number = number(r, parts);
        let zeros = 10usize.saturating_sub(number.len());
        number.splice(0..0, vec![b'0'; zeros]);
    }),
    ("nine digits", |r, parts| {
        let number = number(r, parts);
        let zeros = 9usize.saturating_sub(number.len());
        number.splice(0..0, vec![b'0'; zeros]);
    }),
    ("a side that no map has", |r, parts| {
        let sides: [&[u8]; 7] = [
            b"0",
            b"000",
            b"257",
            b"512",
            b"0257",
            b"65536",
            b"999999999",
        ];
        let side = r.pick(&sides).to_vec();
        *number(r, parts) = side;
    }),
    ("a digit more or other", |r, parts| {
        let digit = r.pick(b"0123456789:/");
        number(r, parts).push(digit);
    }),
    ("a number followed by #", |r, parts| {
        let comments: [&[u8]; 4] = [b"#\n", b"#c\r", b"#c\n ", b"#"];
        let comment = r.pick(&comments);
        if r.percent(50) {
            parts.height.extend(comment);
        } else {
            parts.width.extend(comment);
        }
    }),
    ("line ends mixed", |r, parts| {
        let ends: [&[u8]; 5] = [b"\r\n", b"\r", b"\n\r", b"\n", b"\r\r\n"];
        parts.before_width = r.pick(&ends).to_vec();
        parts.before_height = r.pick(&ends).to_vec();
        parts.blank = r.pick(&ends).to_vec();
    }),
    ("no blank before the raster", |r, parts| {
        parts.blank = r.pick(&[&b""[..], b"#c\n", b"\x0b", b"x"]).to_vec();
    }),
    ("a foreign byte in the raster", |r, parts| {
        let at = match r.below(3) {
            0 => parts.last_digit.min(parts.raster.len()),
            1 => parts.last_digit.saturating_sub(1).min(parts.raster.len()),
            _ => r.below(parts.raster.len() + 1),
        };
        parts.raster.insert(at, r.pick(&FOREIGN));
    }),
    ("the raster cut", |r, parts| {
        let length = r.below(parts.raster.len() + 1);
        parts.raster.truncate(length);
    }),
    ("the raster's last byte missing", |_, parts| {
        let length = if parts.plain {
            parts.last_digit
        } else {
            parts.raster.len()
        };
        parts.raster.truncate(length.saturating_sub(1));
    }),
    ("bytes after the raster", |r, parts| {
        let more: [&[u8]; 9] = [
            b"0",
            b"1",
            b" 0",
            b"\n",
            b" ",
            b"\0",
            b"x",
            b"#c\n",
            b"\n\n\r\t#",
        ];
        let more = r.pick(&more);
        parts.raster.extend(more);
    }),
];

fn separator<'a>(random: &mut Random, parts: &'a mut Parts) -> &'a mut Vec<u8> {
    if random.percent(50) {
        &mut parts.before_width
    } else {
        &mut parts.before_height
    }
}

fn number<'a>(random: &mut Random, parts: &'a mut Parts) -> &'a mut Vec<u8> {
    if random.percent(50) {
        &mut parts.width
    } else {
        &mut parts.height
    }
}

fn header_part<'a>(random: &mut Random, parts: &'a mut Parts) -> &'a mut Vec<u8> {
    match random.below(3) {
        0 => separator(random, parts),
        1 => number(random, parts),
        _ => &mut parts.blank,
    }
}
