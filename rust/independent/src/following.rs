//! Document 02, Req 05, first part: raw maps that follow one another in one input, and the fault of
//! a bad one.
use crate::files::{fitting, header, is_blank, raw_bits, raw_bytes, rocks_of, Picture};
use crate::map::Map;
use crate::markers::MOST;
use crate::text::LONGEST;

/// What stands first in an input that has bytes.
#[derive(Clone, Debug, PartialEq, Eq)]
pub enum First {
    /// A map and how many bytes are its own: it ends where its raster ends.
    Map(Picture, usize),
    /// 12, 13, 1, 14 or 7. "15 is not given for bytes after a raster; they begin the next map."
    Refused(u8),
    /// The bytes that bound a map neither end it nor show a fault, and the input goes on.
    Long,
}

/// A map that stands first and its own bytes, or the refusal for an input that ends as these bytes
/// do.
fn map(input: &[u8]) -> Result<(Picture, usize), u8> {
    if input.get(..2) != Some(b"P4") {
        return Err(12);
    }
    let ([width, height], at) = header(input).ok_or(13)?;
    let map = Map { width, height };
    if map.bad_size() {
        return Err(1);
    }
    let end = at + raw_bytes(map);
    let raster = input.get(at..end).ok_or(14)?;
    let rocks = rocks_of(map, raw_bits(map, raster));
    Ok((fitting(Picture { map, rocks }, MOST)?, end))
}

/// What stands first. Of a longer input only the bytes that bound a map are looked at: a fault of
/// theirs is given if its number is the same whatever bytes follow.
pub fn first(input: &[u8]) -> First {
    let bound = &input[..input.len().min(LONGEST)];
    match map(bound) {
        Ok((picture, end)) => First::Map(picture, end),
        Err(refusal) if input.len() <= LONGEST || shows(bound, refusal) => First::Refused(refusal),
        Err(_) => First::Long,
    }
}

/// Whether a fault of these bytes, at least two, is one whatever follows. Letters do not change. A
/// header that has an end is the header, and so are its sides. One without an end may still get
/// one, unless it is against the rules already. A raster that ends early may go on; the rocks of a
/// whole one do not change.
fn shows(bytes: &[u8], refusal: u8) -> bool {
    match refusal {
        13 => !may_become_header(&bytes[2..]),
        14 => false,
        _ => true,
    }
}

/// Where a header stands after some of its bytes: which number comes next or is being read, 0 or 1.
#[derive(Clone, Copy, Debug, PartialEq, Eq)]
enum At {
    /// In a separator: whether a blank was in it, and whether a comment is open.
    Separator(usize, bool, bool),
    /// In a number after so many digits.
    Number(usize, usize),
    /// After the blank behind the height.
    Whole,
}

/// Whether some bytes after these make a header: byte by byte, along the only way that the rules
/// leave. Each place that can be come to has a way on to the end.
pub fn may_become_header(bytes: &[u8]) -> bool {
    let mut at = At::Separator(0, false, false);
    for &byte in bytes {
        match after(at, byte) {
            Some(next) => at = next,
            None => return false,
        }
    }
    true
}

/// The place after one more byte; none where the rules do not allow it.
fn after(at: At, byte: u8) -> Option<At> {
    let ends_comment = byte == b'\r' || byte == b'\n';
    match at {
        At::Whole => Some(At::Whole),
        At::Separator(which, blank, true) => Some(At::Separator(which, blank, !ends_comment)),
        At::Separator(which, blank, false) => match byte {
            b'#' => Some(At::Separator(which, blank, true)),
            b'0'..=b'9' if blank => Some(At::Number(which, 1)),
            _ if is_blank(byte) => Some(At::Separator(which, true, false)),
            _ => None,
        },
        At::Number(which, digits) => match (byte, which) {
            (b'0'..=b'9', _) if digits < 9 => Some(At::Number(which, digits + 1)),
            (b'#', 0) => Some(At::Separator(1, false, true)),
            (_, 0) if is_blank(byte) => Some(At::Separator(1, true, false)),
            (_, 1) if is_blank(byte) => Some(At::Whole),
            _ => None,
        },
    }
}

#[cfg(test)]
mod tests {
    use super::*;

    /// All words of up to so many of these bytes.
    fn words(of: &[u8], most: usize) -> Vec<Vec<u8>> {
        let mut all = vec![Vec::new()];
        let mut last = all.clone();
        for _ in 0..most {
            let longer = |w: &Vec<u8>| of.iter().map(|&b| [&w[..], &[b]].concat()).collect();
            last = last.iter().flat_map::<Vec<_>, _>(longer).collect();
            all.extend(last.clone());
        }
        all
    }

    fn is_header(bytes: &[u8]) -> bool {
        header::<2>(&[b"P4", bytes].concat()).is_some()
    }

    /// By the definition: some bytes after these make a header. Six are enough for any beginning
    /// that has a way on: an end of line for a comment, a blank, a digit, a blank, a digit, a
    /// blank. After `#` alone none of them can be spared.
    #[test]
    fn a_way_on_is_one() {
        let ends = words(b"\n#1", 6);
        let mut with = [0; 2];
        for beginning in words(b" \n#1x", 4) {
            let some = ends
                .iter()
                .any(|end| is_header(&[&beginning[..], end].concat()));
            assert_eq!(may_become_header(&beginning), some, "{beginning:?}");
            with[usize::from(some)] += 1;
        }
        assert!(with[0] > 100 && with[1] > 100, "{with:?}");
    }

    /// Nine digits may be followed by a blank, and ten are against the rules.
    #[test]
    fn digits_have_a_limit() {
        assert!(may_become_header(b" 000000001"));
        assert!(!may_become_header(b" 0000000001"));
        assert!(may_become_header(b"\n1 000000001"));
        assert!(!may_become_header(b"\n1 0000000001"));
        assert!(!may_become_header(b"\n1 1#"));
        assert!(may_become_header(b"\n1#"));
        assert!(!may_become_header(b"#c\n1"));
    }

    /// An input that ends: each refusal, and a map that another byte follows.
    #[test]
    fn of_an_input_that_ends() {
        for (input, refusal) in [
            (&b"\n"[..], 12),
            (b"P", 12),
            (b"P1 1 1 0", 12),
            (b"P4", 13),
            (b"P4 8", 13),
            (b"P4 0 x", 13),
            (b"P4 0 1", 13),
            (b"P4 0 1 ", 1),
            (b"P4 257 1 ", 1),
            (b"P4 9 2 ", 14),
            (b"P4 9 2 abc", 14),
        ] {
            assert_eq!(first(input), First::Refused(refusal), "{input:?}");
        }
        let picture = Picture {
            map: Map::new(9, 2),
            rocks: Vec::new(),
        };
        assert_eq!(
            first(b"P4 9 2 \0\x7f\0\0x"),
            First::Map(picture, b"P4 9 2 \0\x7f\0\0".len())
        );
    }

    /// A beginning, a byte over and over up to so many bytes in all, and an end.
    fn long(beginning: &[u8], filler: u8, length: usize, end: &[u8]) -> Vec<u8> {
        let mut bytes = beginning.to_vec();
        bytes.resize(length, filler);
        bytes.extend(end);
        bytes
    }

    /// An input past the bound: what its first 65,536 bytes show, and what they leave open.
    #[test]
    fn of_a_longer_input() {
        let at = |filled: usize, end: &[u8]| first(&long(b"P4", b' ', filled, end));
        assert_eq!(at(LONGEST - 1, b"xx"), First::Refused(13));
        assert_eq!(at(LONGEST, b"xx"), First::Long);
        assert_eq!(at(LONGEST - 4, b"0 1 x"), First::Refused(1));
        assert_eq!(at(LONGEST - 3, b"0 1 x"), First::Long);
        assert_eq!(at(LONGEST - 5, b"1 1 xx"), at(LONGEST - 5, b"1 1 x"));
        assert!(matches!(at(LONGEST - 5, b"1 1 xx"), First::Map(_, LONGEST)));
        assert_eq!(at(LONGEST - 4, b"1 1 xx"), First::Long);
        assert_eq!(at(LONGEST - 4, b"1 1 "), First::Refused(14));
        assert_eq!(first(&long(b"Q4", b' ', LONGEST, b"x")), First::Refused(12));
        assert_eq!(first(&long(b"P4 #", b'c', 70_000, b"\n1 1 x")), First::Long);
        // A width of 0 does not show 1 before the header has an end: 13 could come before it.
        assert_eq!(first(&long(b"P4 0", b' ', LONGEST, b"1 ")), First::Long);
    }
}
