//! The depots program: maps from one stream, a line for each map and corner, and the sums.
use super::following::{first, First};
use super::labelling::label_bits;
use super::limits::*;
use super::placing::{place, Numbers};
use std::io::{Read, Result, Write};

/// So much text is gathered before it is written.
const GATHERED: usize = 65_536;

fn line(text: &mut Vec<u8>, [a, b, c, d]: Numbers) -> Result<()> {
    writeln!(text, "{a} {b} {c} {d}")
}

/// The four lines of a map, southwest, southeast, northwest, northeast, and their numbers added to
/// the sums.
fn map_lines(
    bits: &[u8],
    w: usize,
    h: usize,
    sums: &mut Numbers,
    text: &mut Vec<u8>,
) -> Result<()> {
    let mut labels = [0; MOST_CROSSINGS];
    let mut g = [0; MOST_CROSSINGS];
    let (labels, g) = (&mut labels[..w * h], &mut g[..w * h]);
    label_bits(bits, w, h, labels);
    for corner in [(0, 0), (w - 1, 0), (0, h - 1), (w - 1, h - 1)] {
        let numbers = place(labels, w, h, corner, g);
        for (sum, number) in sums.iter_mut().zip(numbers) {
            *sum += number;
        }
        line(text, numbers)?;
    }
    Ok(())
}

/// Fills the buffer from its start on, as far as the input goes.
fn fill(input: &mut impl Read, mut buffer: &mut [u8]) -> Result<usize> {
    let room = buffer.len();
    while !buffer.is_empty() {
        match input.read(buffer)? {
            0 => break,
            n => buffer = &mut buffer[n..],
        }
    }
    Ok(room - buffer.len())
}

/// The whole run.
pub fn run(mut input: impl Read, mut output: impl Write) -> Result<()> {
    let mut buffer = vec![0; MOST_BYTES + 1];
    let (mut start, mut end, mut ended) = (0, 0, false);
    let mut bits = [0; MOST_CROSSINGS];
    let mut sums = [0; 4];
    let mut maps = 0;
    let mut text = Vec::with_capacity(2 * GATHERED);
    loop {
        let src = &buffer[start..end];
        if src.is_empty() && ended {
            line(&mut text, sums)?;
            return output.write_all(&text);
        }
        if !src.is_empty() && maps == MOST_MAPS {
            text.extend(b"refused long\n");
            return output.write_all(&text);
        }
        match first(src, ended, &mut bits) {
            First::Map(w, h, used) => {
                map_lines(&bits[..w * h], w, h, &mut sums, &mut text)?;
                maps += 1;
                start += used;
            }
            First::Refused(refusal) => {
                writeln!(text, "refused {refusal}")?;
                return output.write_all(&text);
            }
            First::Long => {
                text.extend(b"refused long\n");
                return output.write_all(&text);
            }
            First::Unended => {
                buffer.copy_within(start..end, 0);
                (start, end) = (0, end - start);
                end += fill(&mut input, &mut buffer[end..])?;
                ended = end < buffer.len();
            }
        }
        if text.len() > GATHERED {
            output.write_all(&text)?;
            text.clear();
        }
    }
}
