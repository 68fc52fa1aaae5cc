//! The calls that are measured, each made so many times over by one side.
use crate::input::Input;
use crate::layer::{Layer, Listing};
use crate::plain::{Looking, Stack, Whole};
use crate::room::{Room, Window};
use grainbodkin_sys::{
    Assurance, Checked, Counted, CrossingLines, Drove, Four, Homeward, Labelling, Marker, ReadMap,
    SheetRead, SheetWritten, Swept, WroteMap,
};
use std::hint::black_box;

/// A call by its name. Reading a map stands twice, and so does reading a picture, once for each
/// kind.
#[derive(Clone, Copy, Debug, PartialEq, Eq)]
pub enum Call {
    Label,
    Sweeps,
    Measure,
    Distances,
    Assured,
    Hop,
    Region,
    Drive,
    Check,
    Lines,
    LinesDrive,
    Enter,
    Clear,
    ReadPlain,
    ReadRaw,
    Write,
    ReadSheet,
    ReadOldSheet,
    WriteSheet,
}

/// Every call with its name.
pub const CALLS: [(&str, Call); 19] = [
    ("label", Call::Label),
    ("sweeps", Call::Sweeps),
    ("measure", Call::Measure),
    ("distances", Call::Distances),
    ("assured", Call::Assured),
    ("hop", Call::Hop),
    ("region", Call::Region),
    ("drive", Call::Drive),
    ("check", Call::Check),
    ("lines", Call::Lines),
    ("by-lines", Call::LinesDrive),
    ("enter", Call::Enter),
    ("clear", Call::Clear),
    ("read-p1", Call::ReadPlain),
    ("read-p4", Call::ReadRaw),
    ("write", Call::Write),
    ("read-p5", Call::ReadSheet),
    ("read-old", Call::ReadOldSheet),
    ("write-p5", Call::WriteSheet),
];

impl Call {
    pub fn named(name: &str) -> Option<Call> {
        CALLS.iter().find(|c| c.0 == name).map(|c| c.1)
    }

    /// The maps over which the call is measured: sparse, dense, and those that are worst for it.
    /// The questions of which an end may be closed are asked over `blocks` too, where much is
    /// closed and a drive is left. What is asked for a cart is asked over `stones` too.
    pub fn maps(self) -> &'static [&'static str] {
        match self {
            Call::Label | Call::Sweeps => &crate::maps::NAMES,
            Call::Measure => &[
                "empty",
                "sparse",
                "dense",
                "stones",
                "diagonal",
                "lattice-2",
            ],
            Call::Distances
            | Call::Assured
            | Call::Hop
            | Call::Region
            | Call::Drive
            | Call::Check
            | Call::Lines
            | Call::LinesDrive => &["empty", "sparse", "dense", "stones", "blocks", "lattice-2"],
            Call::Write => &["sparse", "dense", "stones", "full"],
            Call::ReadSheet | Call::ReadOldSheet | Call::WriteSheet => &["sparse"],
            _ => &["sparse", "dense", "full"],
        }
    }
}

/// A call's answer.
#[derive(Clone, Copy, Debug, PartialEq, Eq)]
pub enum Answer {
    Refusal(u8),
    Labelling(Labelling),
    Swept(Swept),
    Four(Four),
    Assurance(Assurance),
    Homeward(Homeward),
    Drove(Drove),
    Checked(Checked),
    CrossingLines(CrossingLines),
    Counted(Counted),
    ReadMap(ReadMap),
    WroteMap(WroteMap),
    SheetRead(SheetRead),
    SheetWritten(SheetWritten),
}

impl Answer {
    pub fn refusal(&self) -> u8 {
        match self {
            Answer::Refusal(n) => *n,
            Answer::Labelling(a) => a.refusal,
            Answer::Swept(a) => a.refusal,
            Answer::Four(a) => a.refusal,
            Answer::Assurance(a) => a.refusal,
            Answer::Homeward(a) => a.refusal,
            Answer::Drove(a) => a.refusal,
            Answer::Checked(a) => a.refusal,
            Answer::CrossingLines(a) => a.refusal,
            Answer::Counted(a) => a.refusal,
            Answer::ReadMap(a) => a.refusal,
            Answer::WroteMap(a) => a.refusal,
            Answer::SheetRead(a) => a.refusal,
            Answer::SheetWritten(a) => a.refusal,
        }
    }
}

/// The state of a drive before each call.
const STATE: u32 = 20261115;

/// Makes the call so many times, at least once, and hands back the last answer.
fn again<A>(times: usize, mut call: impl FnMut() -> A) -> A {
    for _ in 1..times {
        black_box(call());
    }
    black_box(call())
}

/// Labelling crossing by crossing, so many times.
#[inline(never)]
pub fn stack_again(input: &Input, room: &mut Room, times: usize) -> Answer {
    let (list, n) = (black_box(&input.list[..]), input.list.len());
    let (w, h, c) = black_box((input.side, input.side, input.clearance));
    let label = || Stack::label(list, n, w, h, c, &mut room.labels);
    Answer::Labelling(again(times, label))
}

/// Sweeps of whole maps, so many times.
#[inline(never)]
pub fn whole_again(input: &Input, room: &mut Room, times: usize) -> Answer {
    let (list, n) = (black_box(&input.list[..]), input.list.len());
    let (w, h, c) = black_box((input.side, input.side, input.clearance));
    let sweeps = || Whole::sweeps(list, n, w, h, c, &mut room.labels);
    Answer::Swept(again(times, sweeps))
}

/// The distances of the whole map by looking from each crossing, so many times.
#[inline(never)]
pub fn look_again(input: &Input, room: &mut Room, times: usize) -> Answer {
    let (list, n) = (black_box(&input.list[..]), input.list.len());
    let (w, h, c) = black_box((input.side, input.side, input.clearance));
    let labels = &mut room.labels;
    let (east, south) = (&mut room.east, &mut room.south);
    let (west, north) = (&mut room.west, &mut room.north);
    let measure = || Looking::measure(list, n, w, h, c, labels, east, south, west, north);
    Answer::Refusal(again(times, measure))
}

/// One side's call, so many times over the same input into the same room, and the last answer. The
/// room holds what the last call left.
#[inline(never)]
pub fn repeat<L: Layer>(call: Call, input: &Input, room: &mut Room, times: usize) -> Answer {
    let (list, n) = (black_box(&input.list[..]), input.list.len());
    let (w, h, c) = black_box((input.side, input.side, input.clearance));
    match call {
        Call::Enter => enter_again::<L>(input, room, times),
        Call::Clear => clear_again::<L>(input, room, times),
        Call::ReadPlain => {
            let read = || L::read(black_box(&input.text), &mut room.slots);
            Answer::ReadMap(again(times, read))
        }
        Call::ReadRaw => {
            let read = || L::read(black_box(&input.packed), &mut room.slots);
            Answer::ReadMap(again(times, read))
        }
        Call::Write => {
            let write = || L::write(list, n, w, h, c, &mut room.out);
            Answer::WroteMap(again(times, write))
        }
        Call::Check => check_again::<L>(input, room, times),
        Call::Lines | Call::LinesDrive => lines_again::<L>(call, input, room, times),
        Call::ReadSheet => {
            let read = || L::read_sheet(black_box(&input.picture), &mut room.east);
            Answer::SheetRead(again(times, read))
        }
        Call::ReadOldSheet => {
            let read = || L::read_sheet(black_box(&input.old_picture), &mut room.east);
            Answer::SheetRead(again(times, read))
        }
        Call::WriteSheet => {
            let write = || L::write_sheet(black_box(&input.sheet), w, h, &mut room.out);
            Answer::SheetWritten(again(times, write))
        }
        Call::Region | Call::Drive => drive_again::<L>(call, input, room, times),
        _ => ask_again::<L>(call, input, room, times),
    }
}

/// Labels, sweeps, distances, assurance or hop.
fn ask_again<L: Layer>(call: Call, input: &Input, room: &mut Room, times: usize) -> Answer {
    let (list, n) = (black_box(&input.list[..]), input.list.len());
    let (w, h, c) = black_box((input.side, input.side, input.clearance));
    let ((hx, hy), (x, y)) = black_box((input.home, input.place));
    let labels = &mut room.labels;
    match call {
        Call::Measure => {
            let (east, south) = (&mut room.east, &mut room.south);
            let (west, north) = (&mut room.west, &mut room.north);
            let measure = || L::measure(list, n, w, h, c, labels, east, south, west, north);
            Answer::Refusal(again(times, measure))
        }
        Call::Sweeps => Answer::Swept(again(times, || L::sweeps(list, n, w, h, c, labels))),
        Call::Distances => {
            let distances = || L::distances(list, n, w, h, c, hx, hy, labels);
            Answer::Four(again(times, distances))
        }
        Call::Assured => {
            let assured = || L::assured(list, n, w, h, c, hx, hy, x, y, labels);
            Answer::Assurance(again(times, assured))
        }
        Call::Hop => {
            let hop = || L::hop(list, n, w, h, c, hx, hy, x, y, labels);
            Answer::Homeward(again(times, hop))
        }
        _ => Answer::Labelling(again(times, || L::label(list, n, w, h, c, labels))),
    }
}

/// Region or drive. Each drive is made from the same state.
fn drive_again<L: Layer>(call: Call, input: &Input, room: &mut Room, times: usize) -> Answer {
    let (list, n) = (black_box(&input.list[..]), input.list.len());
    let (w, h, c) = black_box((input.side, input.side, input.clearance));
    let ((sx, sy), (dx, dy)) = black_box((input.s, input.d));
    let (labels, g) = (&mut room.labels, &mut room.region);
    if call == Call::Region {
        let region = || L::region(list, n, w, h, c, sx, sy, dx, dy, labels, g);
        return Answer::Refusal(again(times, region));
    }
    let (route, z) = (&mut room.route, &mut room.state);
    let drive = || {
        *z = STATE;
        L::drive(list, n, w, h, c, sx, sy, dx, dy, labels, g, route, z)
    };
    Answer::Drove(again(times, drive))
}

/// The check of a drive from one end to the other.
fn check_again<L: Layer>(input: &Input, room: &mut Room, times: usize) -> Answer {
    let (list, n) = (black_box(&input.list[..]), input.list.len());
    let (w, h, c) = black_box((input.side, input.side, input.clearance));
    let ((sx, sy), (dx, dy)) = black_box((input.s, input.d));
    let drawn = black_box(&input.drawn[..]);
    let labels = &mut room.labels;
    let check = || L::check(list, n, w, h, c, sx, sy, dx, dy, labels, drawn);
    Answer::Checked(again(times, check))
}

/// Crossing lines and the drive by way of them, between a home and the farthest place for which it
/// is assured: most such pairs have lines.
fn lines_again<L: Layer>(call: Call, input: &Input, room: &mut Room, times: usize) -> Answer {
    let (list, n) = (black_box(&input.list[..]), input.list.len());
    let (w, h, c) = black_box((input.side, input.side, input.clearance));
    let ((sx, sy), (dx, dy)) = black_box((input.home, input.place));
    let (labels, g) = (&mut room.labels, &mut room.region);
    if call == Call::Lines {
        let lines = || L::lines(list, n, w, h, c, sx, sy, dx, dy, labels);
        return Answer::CrossingLines(again(times, lines));
    }
    let (route, z) = (&mut room.route, &mut room.state);
    let drive = || {
        *z = STATE;
        L::lines_drive(list, n, w, h, c, sx, sy, dx, dy, labels, g, route, z)
    };
    Answer::Drove(again(times, drive))
}

/// Enters the map's first marker, before all others, into a list that it fills: every other marker
/// moves.
pub fn enter_again<L: Listing>(input: &Input, room: &mut Room, times: usize) -> Answer {
    let (n, side) = (input.list.len(), black_box(input.side));
    let Marker { id, x, y, height } = black_box(input.list[0]);
    let (x, y) = (usize::from(x), usize::from(y));
    let mut window = Window::to_enter(input);
    for _ in 1..times {
        let lent = window.lent();
        black_box(L::enter(lent, n - 1, side, side, id, x, y, height));
        window.entered();
    }
    let last = L::enter(window.lent(), n - 1, side, side, id, x, y, height);
    room.slots[..n].copy_from_slice(window.lent());
    Answer::Counted(last)
}

/// Clears the map's first marker from a full list: every other marker moves.
pub fn clear_again<L: Listing>(input: &Input, room: &mut Room, times: usize) -> Answer {
    let (n, side) = (input.list.len(), black_box(input.side));
    let id = black_box(input.list[0].id);
    let mut window = Window::to_clear(input);
    for _ in 1..times {
        black_box(L::clear(window.lent(), n, side, side, id));
        window.cleared();
    }
    let last = L::clear(window.lent(), n, side, side, id);
    room.slots[..n].copy_from_slice(window.lent());
    Answer::Counted(last)
}
