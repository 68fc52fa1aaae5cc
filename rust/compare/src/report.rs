//! What is said of a difference: the case in full, so that it can be read, and how to make it
//! again.
use crate::case::{After, Call, Case};
use independent::labels::rocks;
use independent::map::Crossing;
use std::fmt::{Debug, Write};

/// Every difference between what was expected and what was seen, one line each.
pub fn differences(expected: &After, seen: &After) -> Vec<String> {
    let mut lines = Vec::new();
    if expected.refusal != seen.refusal {
        lines.push(format!(
            "refusal number: independent {}, library {}",
            expected.refusal, seen.refusal
        ));
    }
    for (want, got) in expected.answer.iter().zip(&seen.answer) {
        if want != got {
            lines.push(format!(
                "answer, {}: independent {}, library {}",
                want.0, want.1, got.1
            ));
        }
    }
    let (want, got) = (&expected.memory, &seen.memory);
    let sheets = ["east sheet", "south sheet", "west sheet", "north sheet"];
    lines.extend(buffer("list, slot", &want.list, &got.list));
    lines.extend(buffer("label sheet, crossing", &want.labels, &got.labels));
    for (way, name) in sheets.iter().enumerate() {
        let name = format!("{name}, crossing");
        lines.extend(buffer(&name, &want.sheets[way], &got.sheets[way]));
    }
    lines.extend(buffer("region sheet, crossing", &want.region, &got.region));
    lines.extend(buffer(
        "picture's sheet, crossing",
        &want.picture,
        &got.picture,
    ));
    lines.extend(buffer("route, place", &want.route, &got.route));
    lines.extend(buffer("state, number", &[want.state], &[got.state]));
    lines.extend(buffer("drawn list, position", &want.drawn, &got.drawn));
    lines.extend(buffer("file, byte", &want.file, &got.file));
    lines.extend(buffer("output, byte", &want.out, &got.out));
    lines
}

/// The first element of a buffer that differs, and how many do.
fn buffer<T: PartialEq + Debug>(name: &str, want: &[T], got: &[T]) -> Option<String> {
    let differ = |i: &usize| want.get(*i) != got.get(*i);
    let places: Vec<usize> = (0..want.len().max(got.len())).filter(differ).collect();
    let &first = places.first()?;
    let shown = |b: &[T]| {
        b.get(first)
            .map_or("nothing".to_string(), |e| format!("{e:?}"))
    };
    Some(format!(
        "{name} {first}: independent {}, library {} ({} differ)",
        shown(want),
        shown(got),
        places.len()
    ))
}

/// So many slots of a list are told.
const SLOTS: usize = 40;

/// So many numbers of a drawn list are told; no shortest drive has more.
const DRAWN: usize = 511;

/// Bytes as they may be printed; of many, those at both ends.
pub fn shortened(bytes: &[u8]) -> String {
    if bytes.len() <= 600 {
        return bytes.escape_ascii().to_string();
    }
    let (start, end) = (&bytes[..300], &bytes[bytes.len() - 200..]);
    let between = bytes.len() - 500;
    format!(
        "{} ... {between} bytes ... {}",
        start.escape_ascii(),
        end.escape_ascii()
    )
}

/// The case in words: its numbers, its list, its map as far as there is one, its file, and what its
/// buffers hold.
pub fn describe(case: &Case) -> String {
    let mut text = String::new();
    let m = &case.before;
    let [a, b] = case.places;
    let _ = writeln!(text, "  made of: {}", case.notes.join("; "));
    let _ = writeln!(
        text,
        "  {} on {} by {}, clearance {}, count {}, id {}, height {}, first place ({}, {}), second place ({}, {}), state {}",
        case.call.name(),
        case.map.width,
        case.map.height,
        case.clearance,
        case.count,
        case.id,
        case.height,
        a.x,
        a.y,
        b.x,
        b.y,
        m.state
    );
    let _ = writeln!(
        text,
        "  lengths: list {}, labels {}, sheets {:?}, region {}, route {}, drawn {}, file {}, output {}",
        m.list.len(),
        m.labels.len(),
        m.sheets.each_ref().map(Vec::len),
        m.region.len(),
        m.route.len(),
        m.drawn.len(),
        m.file.len(),
        m.out.len()
    );
    let slots = m.list.iter().take(SLOTS);
    let slots: Vec<String> = slots
        .map(|m| format!("{}:({},{})^{}", m.id, m.x, m.y, m.height))
        .collect();
    let _ = writeln!(text, "  first slots: {}", slots.join(" "));
    if case.call == Call::Check {
        let first = &m.drawn[..m.drawn.len().min(DRAWN)];
        let _ = writeln!(text, "  first numbers drawn: {first:?}");
    }
    if case.call == Call::Read {
        let _ = writeln!(text, "  file: {}", shortened(&m.file));
    }
    text + &drawn(case)
}

/// The cart's rocks, drawn from the north, where sizes and count allow it.
fn drawn(case: &Case) -> String {
    let mut text = String::new();
    if case.map.bad_size() || case.count > case.before.list.len() {
        return text;
    }
    let rocks = rocks(&case.before.list[..case.count], case.clearance);
    for y in (0..case.map.height).rev() {
        let row = (0..case.map.width).map(|x| {
            if rocks.contains(&Crossing::new(x, y)) {
                '#'
            } else {
                '.'
            }
        });
        let _ = writeln!(text, "    {}", row.collect::<String>());
    }
    text
}

#[cfg(test)]
mod tests {
    use super::*;
    use crate::{expected::expect, making::make};

    type Change = (&'static str, fn(&mut After));

    /// Every part of what is seen after a call is compared: a change of any one of them is told.
    #[test]
    fn each_part_is_compared() {
        let changes: [Change; 12] = [
            ("refusal", |a| a.refusal ^= 1),
            ("list", |a| a.memory.list.push(Default::default())),
            ("label sheet", |a| a.memory.labels.push(0)),
            ("east", |a| a.memory.sheets[0].push(0)),
            ("south", |a| a.memory.sheets[1].push(0)),
            ("west", |a| a.memory.sheets[2].push(0)),
            ("north", |a| a.memory.sheets[3].push(0)),
            ("region", |a| a.memory.region.push(0)),
            ("route", |a| a.memory.route.push(0)),
            ("state", |a| a.memory.state ^= 1),
            ("drawn", |a| a.memory.drawn.push(0)),
            ("output", |a| a.memory.out.push(0)),
        ];
        let expected = expect(&make(1, 1));
        assert_eq!(differences(&expected, &expected), [""; 0]);
        for (name, change) in changes {
            let mut seen = expected.clone();
            change(&mut seen);
            let lines = differences(&expected, &seen);
            assert_eq!(lines.len(), 1, "{name}: {lines:?}");
            assert!(lines[0].starts_with(name), "{name}: {lines:?}");
        }
    }

    /// So are the numbers of an answer.
    #[test]
    fn each_number_of_an_answer_is_compared() {
        for index in 0..200 {
            let expected = expect(&make(1, index));
            for at in 0..expected.answer.len() {
                let mut seen = expected.clone();
                seen.answer[at].1 ^= 1;
                assert_eq!(differences(&expected, &seen).len(), 1);
            }
        }
    }
}
