//! What the independent program says of a case.
use crate::case::{After, Call, Case, Memory};
use independent::asking::Asking;
use independent::{
    checks, distances, drives, files, hops, labels, lines, markers, pictures, sweeps,
};

/// The independent program's answer and memory after the call.
pub fn expect(case: &Case) -> After {
    let mut memory = case.before.clone();
    let (refusal, answer) = match case.call {
        Call::Enter | Call::Clear => counted(case, &mut memory),
        Call::Label => label(case, &mut memory),
        Call::Sweeps => swept(case, &mut memory),
        Call::Distances => one_crossing(case, &mut memory),
        Call::Measure => measure(case, &mut memory),
        Call::Assured => assured(case, &mut memory),
        Call::Hop => hop(case, &mut memory),
        Call::Region => region(case, &mut memory),
        Call::Drive | Call::LinesDrive => drive(case, &mut memory),
        Call::Check => check(case, &mut memory),
        Call::Lines => crossing_lines(case, &mut memory),
        Call::Read => read(case, &mut memory),
        Call::Write => write(case, &mut memory),
        Call::WriteSheet => write_sheet(case, &mut memory),
        Call::ReadSheet => read_sheet(case, &mut memory),
    };
    After {
        refusal,
        answer,
        memory,
    }
}

type Answer = (u8, Vec<(&'static str, usize)>);

fn asking(case: &Case) -> Asking<'_> {
    Asking {
        list: &case.before.list,
        count: case.count,
        map: case.map,
        clearance: case.clearance,
        labels: &case.before.labels,
        places: &case.places[..case.call.places()],
    }
}

fn counted(case: &Case, memory: &mut Memory) -> Answer {
    let (list, count, map) = (&case.before.list, case.count, case.map);
    let place = (case.places[0].x, case.places[0].y);
    let after = match case.call {
        Call::Enter => markers::enter(list, count, map, case.id, place, case.height),
        _ => markers::clear(list, count, map, case.id),
    };
    memory.list = after.list;
    (after.refusal, vec![("count", after.count)])
}

fn label(case: &Case, memory: &mut Memory) -> Answer {
    let before = &case.before;
    let after = labels::label(
        &before.list,
        case.count,
        case.map,
        case.clearance,
        &before.labels,
    );
    memory.labels = after.labels;
    let answer = vec![
        ("rocks", after.rocks),
        ("shut", after.shut),
        ("groups", after.groups),
    ];
    (after.refusal, answer)
}

fn swept(case: &Case, memory: &mut Memory) -> Answer {
    let after = sweeps::sweeps(asking(case));
    memory.labels = after.labels;
    (after.refusal, vec![("sweeps", after.sweeps)])
}

fn one_crossing(case: &Case, memory: &mut Memory) -> Answer {
    let after = distances::distances(asking(case));
    memory.labels = after.labels;
    let names = ["east", "south", "west", "north"];
    let answer = names.into_iter().zip(after.four.map(usize::from)).collect();
    (after.refusal, answer)
}

fn measure(case: &Case, memory: &mut Memory) -> Answer {
    let sheets = std::array::from_fn(|way| &case.before.sheets[way][..]);
    let after = distances::measure(asking(case), sheets);
    memory.labels = after.labels;
    memory.sheets = after.sheets;
    (after.refusal, vec![])
}

fn assured(case: &Case, memory: &mut Memory) -> Answer {
    let after = distances::assured(asking(case));
    memory.labels = after.labels;
    (after.refusal, vec![("assured", usize::from(after.assured))])
}

/// A hop that there is not has zeros for its place.
fn hop(case: &Case, memory: &mut Memory) -> Answer {
    let after = hops::hop(asking(case));
    memory.labels = after.labels;
    let place = |i: usize| after.hops.get(i).map_or((0, 0), |c| (c.x, c.y));
    let answer = vec![
        ("hops", after.hops.len()),
        ("x", place(0).0),
        ("y", place(0).1),
        ("a", place(1).0),
        ("b", place(1).1),
    ];
    (after.refusal, answer)
}

fn region(case: &Case, memory: &mut Memory) -> Answer {
    let after = drives::region(asking(case), &case.before.region);
    memory.labels = after.labels;
    memory.region = after.region;
    (after.refusal, vec![])
}

fn drive(case: &Case, memory: &mut Memory) -> Answer {
    let before = &case.before;
    let make = match case.call {
        Call::Drive => drives::drive,
        _ => lines::lines_drive,
    };
    let after = make(asking(case), &before.region, &before.route, before.state);
    memory.labels = after.labels;
    memory.region = after.region;
    memory.route = after.route;
    memory.state = after.state;
    (after.refusal, vec![("length", after.length)])
}

fn check(case: &Case, memory: &mut Memory) -> Answer {
    let after = checks::check(asking(case), &case.before.drawn);
    memory.labels = after.labels;
    let answer = vec![
        ("reason", usize::from(after.reason)),
        ("position", after.position),
    ];
    (after.refusal, answer)
}

fn crossing_lines(case: &Case, memory: &mut Memory) -> Answer {
    let after = lines::lines(asking(case));
    memory.labels = after.labels;
    let answer = vec![
        ("yes", usize::from(after.yes)),
        ("column", after.column),
        ("row", after.row),
    ];
    (after.refusal, answer)
}

fn read(case: &Case, memory: &mut Memory) -> Answer {
    let after = files::read(&case.before.file, &case.before.list);
    memory.list = after.list;
    let answer = vec![
        ("width", after.width),
        ("height", after.height),
        ("count", after.count),
    ];
    (after.refusal, answer)
}

fn write(case: &Case, memory: &mut Memory) -> Answer {
    let before = &case.before;
    let after = files::write(
        &before.list,
        case.count,
        case.map,
        case.clearance,
        &before.out,
    );
    memory.out = after.out;
    (after.refusal, vec![("bytes", after.bytes)])
}

fn write_sheet(case: &Case, memory: &mut Memory) -> Answer {
    let after = pictures::write(&case.before.picture, case.map, &case.before.out);
    memory.out = after.out;
    (after.refusal, vec![("bytes", after.bytes)])
}

fn read_sheet(case: &Case, memory: &mut Memory) -> Answer {
    let after = pictures::read(&case.before.file, &case.before.picture);
    memory.picture = after.sheet;
    let answer = vec![("width", after.width), ("height", after.height)];
    (after.refusal, answer)
}
