//! A file's header: a separator and a number, so many times, and exactly one blank byte.

/// The most digits of a number.
const MOST_DIGITS: usize = 9;

/// A space, TAB, CR or LF.
pub fn is_blank(b: u8) -> bool {
    matches!(b, b' ' | b'\t' | b'\r' | b'\n')
}

/// What follows a separator, one or more blanks and comments, at least one of them a blank.
fn separator(mut bytes: &[u8]) -> Option<&[u8]> {
    let mut seen = false;
    loop {
        match bytes {
            [b'#', rest @ ..] => {
                let end = rest.iter().position(|b| matches!(b, b'\r' | b'\n'))?;
                bytes = &rest[end + 1..];
            }
            [b, rest @ ..] if is_blank(*b) => {
                seen = true;
                bytes = rest;
            }
            _ => return seen.then_some(bytes),
        }
    }
}

/// A number of 1 to 9 decimal digits, and what follows it.
fn number(bytes: &[u8]) -> Option<(usize, &[u8])> {
    let mut value = 0;
    let mut digits = 0;
    while let Some(b) = bytes.get(digits).filter(|b| b.is_ascii_digit()) {
        if digits == MOST_DIGITS {
            return None;
        }
        value = value * 10 + (b - b'0') as usize;
        digits += 1;
    }
    (digits > 0).then(|| (value, &bytes[digits..]))
}

/// As many numbers as there is room for, and the raster, of what follows the letters.
pub fn header<'a>(mut bytes: &'a [u8], numbers: &mut [usize]) -> Option<&'a [u8]> {
    for value in numbers {
        (*value, bytes) = number(separator(bytes)?)?;
    }
    match bytes {
        [b, raster @ ..] if is_blank(*b) => Some(raster),
        _ => None,
    }
}
