//! What the proved library says of a case: the same call through the C interface, with every buffer
//! between guards.
use crate::case::{After, Call, Case};
use crate::lendings::Lendings;
use grainbodkin_sys as sys;

/// The library's answer and memory after the call, and the names of the buffers whose guards were
/// changed.
pub fn run(case: &Case) -> (After, Vec<&'static str>) {
    let mut lent = Lendings::new(&case.before);
    let (refusal, answer) = match case.call {
        Call::Enter => enter(case, &mut lent),
        Call::Clear => clear(case, &mut lent),
        Call::Label => label(case, &mut lent),
        Call::Sweeps => sweeps(case, &mut lent),
        Call::Distances => distances(case, &mut lent),
        Call::Measure => measure(case, &mut lent),
        Call::Assured => assured(case, &mut lent),
        Call::Hop => hop(case, &mut lent),
        Call::Region => region(case, &mut lent),
        Call::Drive => drive(case, &mut lent),
        Call::Check => check(case, &mut lent),
        Call::Lines => lines(case, &mut lent),
        Call::LinesDrive => lines_drive(case, &mut lent),
        Call::Read => read(case, &mut lent),
        Call::Write => write(case, &mut lent),
        Call::WriteSheet => write_sheet(case, &mut lent),
        Call::ReadSheet => read_sheet(case, &mut lent),
    };
    let after = After {
        refusal,
        answer,
        memory: lent.memory(),
    };
    (after, lent.broken())
}

type Answer = (u8, Vec<(&'static str, usize)>);

// SAFETY, of each call below: every pointer comes from a buffer of its own, stands before that
// buffer's length, is aligned and not null; no two buffers overlap. The numbers may be anything:
// the calls promise an answer for every value.

fn enter(case: &Case, lent: &mut Lendings) -> Answer {
    let [place, _] = case.places;
    let after = unsafe {
        sys::bodkin_enter(
            lent.list.pointer(),
            lent.list.len(),
            case.count,
            case.map.width,
            case.map.height,
            case.id,
            place.x,
            place.y,
            case.height,
        )
    };
    (after.refusal, vec![("count", after.count)])
}

fn clear(case: &Case, lent: &mut Lendings) -> Answer {
    let after = unsafe {
        sys::bodkin_clear(
            lent.list.pointer(),
            lent.list.len(),
            case.count,
            case.map.width,
            case.map.height,
            case.id,
        )
    };
    (after.refusal, vec![("count", after.count)])
}

fn label(case: &Case, lent: &mut Lendings) -> Answer {
    let after = unsafe {
        sys::bodkin_label(
            lent.list.pointer(),
            lent.list.len(),
            case.count,
            case.map.width,
            case.map.height,
            case.clearance,
            lent.labels.pointer(),
            lent.labels.len(),
        )
    };
    let answer = vec![
        ("rocks", after.rocks),
        ("shut", after.shut),
        ("groups", after.groups),
    ];
    (after.refusal, answer)
}

fn sweeps(case: &Case, lent: &mut Lendings) -> Answer {
    let after = unsafe {
        sys::bodkin_sweeps(
            lent.list.pointer(),
            lent.list.len(),
            case.count,
            case.map.width,
            case.map.height,
            case.clearance,
            lent.labels.pointer(),
            lent.labels.len(),
        )
    };
    (after.refusal, vec![("sweeps", after.sweeps)])
}

fn distances(case: &Case, lent: &mut Lendings) -> Answer {
    let [place, _] = case.places;
    let after = unsafe {
        sys::bodkin_distances(
            lent.list.pointer(),
            lent.list.len(),
            case.count,
            case.map.width,
            case.map.height,
            case.clearance,
            place.x,
            place.y,
            lent.labels.pointer(),
            lent.labels.len(),
        )
    };
    let names = ["east", "south", "west", "north"];
    let answer = names.into_iter().zip(after.four.map(usize::from)).collect();
    (after.refusal, answer)
}

fn measure(case: &Case, lent: &mut Lendings) -> Answer {
    let [east, south, west, north] = &mut lent.sheets;
    let refusal = unsafe {
        sys::bodkin_measure(
            lent.list.pointer(),
            lent.list.len(),
            case.count,
            case.map.width,
            case.map.height,
            case.clearance,
            lent.labels.pointer(),
            lent.labels.len(),
            east.pointer(),
            east.len(),
            south.pointer(),
            south.len(),
            west.pointer(),
            west.len(),
            north.pointer(),
            north.len(),
        )
    };
    (refusal, vec![])
}

fn assured(case: &Case, lent: &mut Lendings) -> Answer {
    let [home, place] = case.places;
    let after = unsafe {
        sys::bodkin_assured(
            lent.list.pointer(),
            lent.list.len(),
            case.count,
            case.map.width,
            case.map.height,
            case.clearance,
            home.x,
            home.y,
            place.x,
            place.y,
            lent.labels.pointer(),
            lent.labels.len(),
        )
    };
    (after.refusal, vec![("assured", usize::from(after.assured))])
}

fn hop(case: &Case, lent: &mut Lendings) -> Answer {
    let [home, place] = case.places;
    let after = unsafe {
        sys::bodkin_hop(
            lent.list.pointer(),
            lent.list.len(),
            case.count,
            case.map.width,
            case.map.height,
            case.clearance,
            home.x,
            home.y,
            place.x,
            place.y,
            lent.labels.pointer(),
            lent.labels.len(),
        )
    };
    let answer = vec![
        ("hops", usize::from(after.hops)),
        ("x", after.x),
        ("y", after.y),
        ("a", after.a),
        ("b", after.b),
    ];
    (after.refusal, answer)
}

fn region(case: &Case, lent: &mut Lendings) -> Answer {
    let [s, d] = case.places;
    let refusal = unsafe {
        sys::bodkin_region(
            lent.list.pointer(),
            lent.list.len(),
            case.count,
            case.map.width,
            case.map.height,
            case.clearance,
            s.x,
            s.y,
            d.x,
            d.y,
            lent.labels.pointer(),
            lent.labels.len(),
            lent.region.pointer(),
            lent.region.len(),
        )
    };
    (refusal, vec![])
}

fn drive(case: &Case, lent: &mut Lendings) -> Answer {
    let [s, d] = case.places;
    let after = unsafe {
        sys::bodkin_drive(
            lent.list.pointer(),
            lent.list.len(),
            case.count,
            case.map.width,
            case.map.height,
            case.clearance,
            s.x,
            s.y,
            d.x,
            d.y,
            lent.labels.pointer(),
            lent.labels.len(),
            lent.region.pointer(),
            lent.region.len(),
            lent.route.pointer(),
            lent.route.len(),
            lent.state.pointer(),
        )
    };
    (after.refusal, vec![("length", after.length)])
}

fn check(case: &Case, lent: &mut Lendings) -> Answer {
    let [s, d] = case.places;
    let after = unsafe {
        sys::bodkin_check(
            lent.list.pointer(),
            lent.list.len(),
            case.count,
            case.map.width,
            case.map.height,
            case.clearance,
            s.x,
            s.y,
            d.x,
            d.y,
            lent.labels.pointer(),
            lent.labels.len(),
            lent.drawn.pointer(),
            lent.drawn.len(),
        )
    };
    let answer = vec![
        ("reason", usize::from(after.reason)),
        ("position", after.position),
    ];
    (after.refusal, answer)
}

fn lines(case: &Case, lent: &mut Lendings) -> Answer {
    let [s, d] = case.places;
    let after = unsafe {
        sys::bodkin_lines(
            lent.list.pointer(),
            lent.list.len(),
            case.count,
            case.map.width,
            case.map.height,
            case.clearance,
            s.x,
            s.y,
            d.x,
            d.y,
            lent.labels.pointer(),
            lent.labels.len(),
        )
    };
    let answer = vec![
        ("yes", usize::from(after.yes)),
        ("column", after.column),
        ("row", after.row),
    ];
    (after.refusal, answer)
}

fn lines_drive(case: &Case, lent: &mut Lendings) -> Answer {
    let [s, d] = case.places;
    let after = unsafe {
        sys::bodkin_lines_drive(
            lent.list.pointer(),
            lent.list.len(),
            case.count,
            case.map.width,
            case.map.height,
            case.clearance,
            s.x,
            s.y,
            d.x,
            d.y,
            lent.labels.pointer(),
            lent.labels.len(),
            lent.region.pointer(),
            lent.region.len(),
            lent.route.pointer(),
            lent.route.len(),
            lent.state.pointer(),
        )
    };
    (after.refusal, vec![("length", after.length)])
}

fn read(_: &Case, lent: &mut Lendings) -> Answer {
    let after = unsafe {
        sys::bodkin_read(
            lent.file.pointer(),
            lent.file.len(),
            lent.list.pointer(),
            lent.list.len(),
        )
    };
    let answer = vec![
        ("width", after.width),
        ("height", after.height),
        ("count", after.count),
    ];
    (after.refusal, answer)
}

fn write(case: &Case, lent: &mut Lendings) -> Answer {
    let after = unsafe {
        sys::bodkin_write(
            lent.list.pointer(),
            lent.list.len(),
            case.count,
            case.map.width,
            case.map.height,
            case.clearance,
            lent.out.pointer(),
            lent.out.len(),
        )
    };
    (after.refusal, vec![("bytes", after.bytes)])
}

fn write_sheet(case: &Case, lent: &mut Lendings) -> Answer {
    let after = unsafe {
        sys::bodkin_write_sheet(
            lent.picture.pointer(),
            lent.picture.len(),
            case.map.width,
            case.map.height,
            lent.out.pointer(),
            lent.out.len(),
        )
    };
    (after.refusal, vec![("bytes", after.bytes)])
}

fn read_sheet(_: &Case, lent: &mut Lendings) -> Answer {
    let after = unsafe {
        sys::bodkin_read_sheet(
            lent.file.pointer(),
            lent.file.len(),
            lent.picture.pointer(),
            lent.picture.len(),
        )
    };
    let answer = vec![("width", after.width), ("height", after.height)];
    (after.refusal, answer)
}
