//! A case: one call with all its numbers and all the memory lent to it; and what can be seen after
//! the call.
use independent::map::{Crossing, Map};
use independent::markers::Marker;

/// The seventeen calls.
#[derive(Clone, Copy, Debug, PartialEq, Eq)]
pub enum Call {
    Enter,
    Clear,
    Label,
    Sweeps,
    Distances,
    Measure,
    Assured,
    Hop,
    Region,
    Drive,
    Check,
    Lines,
    LinesDrive,
    Read,
    Write,
    WriteSheet,
    ReadSheet,
}

pub const CALLS: [Call; 17] = [
    Call::Enter,
    Call::Clear,
    Call::Label,
    Call::Sweeps,
    Call::Distances,
    Call::Measure,
    Call::Assured,
    Call::Hop,
    Call::Region,
    Call::Drive,
    Call::Check,
    Call::Lines,
    Call::LinesDrive,
    Call::Read,
    Call::Write,
    Call::WriteSheet,
    Call::ReadSheet,
];

impl Call {
    pub fn name(self) -> &'static str {
        match self {
            Call::Enter => "enter",
            Call::Clear => "clear",
            Call::Label => "label",
            Call::Sweeps => "sweeps",
            Call::Distances => "distances",
            Call::Measure => "measure",
            Call::Assured => "assured",
            Call::Hop => "hop",
            Call::Region => "region",
            Call::Drive => "drive",
            Call::Check => "check",
            Call::Lines => "lines",
            Call::LinesDrive => "by lines",
            Call::Read => "read",
            Call::Write => "write",
            Call::WriteSheet => "picture",
            Call::ReadSheet => "pictured",
        }
    }

    /// Success and the refusals that are possible for the call.
    pub fn possible(self) -> &'static [u8] {
        match self {
            Call::Enter => &[0, 1, 3, 4, 5, 7],
            Call::Clear => &[0, 1, 3, 6],
            Call::Label => &[0, 1, 2, 3],
            Call::Sweeps => &[0, 1, 2, 3],
            Call::Distances => &[0, 1, 2, 3, 4],
            Call::Measure => &[0, 1, 2, 3],
            Call::Assured => &[0, 1, 2, 3, 4, 8],
            Call::Hop => &[0, 1, 2, 3, 4, 8, 11],
            Call::Region => &[0, 1, 2, 3, 4, 8, 9],
            Call::Drive => &[0, 1, 2, 3, 4, 8, 9, 10],
            Call::Check => &[0, 1, 2, 3, 4, 8],
            Call::Lines => &[0, 1, 2, 3, 4, 8],
            Call::LinesDrive => &[0, 1, 2, 3, 4, 8, 10, 19],
            Call::Read => &[0, 1, 7, 12, 13, 14, 15],
            Call::Write => &[0, 1, 3, 16, 17],
            Call::WriteSheet => &[0, 1, 2, 17],
            Call::ReadSheet => &[0, 1, 2, 12, 13, 14, 15, 18],
        }
    }

    /// Whether the call takes a clearance: every asking, and writing a map.
    pub fn for_a_cart(self) -> bool {
        self.sheets() > 0 || self == Call::Write
    }

    /// How many places the call is asked about: home and place, or s and d.
    pub fn places(self) -> usize {
        match self {
            Call::Enter | Call::Distances => 1,
            Call::Assured | Call::Hop | Call::Region | Call::Drive | Call::Check => 2,
            Call::Lines | Call::LinesDrive => 2,
            _ => 0,
        }
    }

    /// How many sheets are lent.
    pub fn sheets(self) -> usize {
        match self {
            Call::Label | Call::Distances | Call::Assured | Call::Hop | Call::Check => 1,
            Call::Lines | Call::Sweeps => 1,
            Call::Region | Call::Drive | Call::LinesDrive => 2,
            Call::Measure => 5,
            _ => 0,
        }
    }
}

/// All memory that a call can be lent; what a call is not lent is empty and stays so.
#[derive(Clone, Debug, Default, PartialEq, Eq)]
pub struct Memory {
    pub list: Vec<Marker>,
    pub labels: Vec<u8>,
    /// East, south, west, north.
    pub sheets: [Vec<u16>; 4],
    pub region: Vec<u8>,
    /// The sheet of a picture.
    pub picture: Vec<u16>,
    pub route: Vec<u16>,
    pub state: u32,
    /// A drawn list, which is only read.
    pub drawn: Vec<u16>,
    pub file: Vec<u8>,
    pub out: Vec<u8>,
}

/// A call with its numbers and the memory before it.
#[derive(Clone, Debug)]
pub struct Case {
    pub call: Call,
    pub map: Map,
    /// The cart's ground clearance.
    pub clearance: u16,
    pub count: usize,
    pub id: u16,
    /// The height of a marker that is entered.
    pub height: u16,
    /// Home and place, or s and d; a call with one place takes the first.
    pub places: [Crossing; 2],
    pub before: Memory,
    /// The names of what the case is made of, for the tally and for whoever reads a difference.
    pub notes: Vec<&'static str>,
}

impl Case {
    pub fn new(call: Call, map: Map) -> Case {
        Case {
            call,
            map,
            clearance: 0,
            count: 0,
            id: 0,
            height: 0,
            places: [Crossing::new(0, 0); 2],
            before: Memory::default(),
            notes: Vec::new(),
        }
    }
}

/// What can be seen after a call: the refusal number, each number of the answer with its name, and
/// all memory.
#[derive(Clone, Debug, PartialEq, Eq)]
pub struct After {
    pub refusal: u8,
    pub answer: Vec<(&'static str, usize)>,
    pub memory: Memory,
}
