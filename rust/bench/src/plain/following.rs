//! Raw maps that follow one another: what stands first in the bytes at hand.
use super::header::header;
use super::judging::sized;
use super::limits::*;
use super::raster;

/// What stands first: a map with its sides and its own bytes, a refusal, more bytes than bound a
/// map, or nothing that can be told before more is read.
pub enum First {
    Map(usize, usize, usize),
    Refused(u8),
    Long,
    Unended,
}

/// What bytes without a fault of their own are told by: whether the input ends with them, or they
/// are as many as bound a map.
fn cut(ended: bool, whole: bool, refusal: u8) -> First {
    if whole {
        First::Long
    } else if ended {
        First::Refused(refusal)
    } else {
        First::Unended
    }
}

/// Whether bytes without a header become one with more behind them: an end of line ends a comment
/// or a number, and blanks and numbers follow.
fn goes_on(bytes: &[u8]) -> bool {
    let more = [bytes, b"\n\n1\n1\n"].concat();
    header(&more, &mut [0; 2]).is_some()
}

/// What stands first in the bytes at hand, which the input ends with or goes on after; a map's bits
/// in raster order. Of more bytes than bound a map only these are looked at.
pub fn first(src: &[u8], ended: bool, bits: &mut [u8]) -> First {
    let whole = src.len() > MOST_BYTES;
    let src = &src[..src.len().min(MOST_BYTES)];
    let bytes = match src {
        [b'P', b'4', bytes @ ..] => bytes,
        [] | [b'P'] => return cut(ended, whole, BAD_LETTERS),
        _ => return First::Refused(BAD_LETTERS),
    };
    let mut sides = [0; 2];
    let Some(body) = header(bytes, &mut sides) else {
        let open = (whole || !ended) && goes_on(bytes);
        return cut(ended || !open, whole && open, BAD_HEADER);
    };
    let [w, h] = sides;
    if !sized(w, h) {
        return First::Refused(BAD_SIZE);
    }
    let own = w.div_ceil(8) * h;
    if body.len() < own {
        return cut(ended, whole, SHORT_RASTER);
    }
    match raster::read_raw(&body[..own], w, h, bits) {
        Ok(rocks) if rocks > MOST_MARKERS => First::Refused(NO_SLOT),
        Ok(_) => First::Map(w, h, src.len() - body.len() + own),
        Err(refusal) => First::Refused(refusal),
    }
}
