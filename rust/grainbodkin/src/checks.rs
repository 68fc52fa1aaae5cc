//! The check of a drawn list.

use std::fmt;

/// What is found of a drawn list of crossing numbers.
///
/// ```
/// use grainbodkin::{Cart, Fault, Finding, Map, Markers, Place, Reason};
///
/// let cart = Cart::new(20);
/// let markers = Markers::new(Map::new(8, 8)?, 0);
/// let (s, d) = (Place::new(0, 0), Place::new(2, 1));
/// assert_eq!(markers.check(cart, s, d, &[0, 1, 2, 10])?, Finding::Accepted);
/// let fault = Fault { position: 2, reason: Reason::NotNearer };
/// assert_eq!(markers.check(cart, s, d, &[0, 1, 0])?, Finding::AtFault(fault));
/// assert_eq!(fault.to_string(), "at position 2: not nearer d");
/// # Ok::<(), grainbodkin::Refusal>(())
/// ```
#[derive(Clone, Copy, Debug, PartialEq, Eq, Hash)]
pub enum Finding {
    /// The list is a shortest drive from s to d.
    Accepted,
    /// It is not.
    AtFault(Fault),
}

/// The first crossing at fault.
#[derive(Clone, Copy, Debug, PartialEq, Eq, Hash)]
pub struct Fault {
    /// Its position in the list, from 0 on; of a list that ended early, its length.
    pub position: usize,
    /// The first reason that applies there.
    pub reason: Reason,
}

/// Why a crossing of a drawn list is at fault. A crossing after d has gone on; at any other the
/// reasons are tried in this order.
#[derive(Clone, Copy, Debug, PartialEq, Eq, PartialOrd, Ord, Hash)]
#[repr(u8)]
pub enum Reason {
    /// The first number is not that of s.
    WrongStart = 1,
    /// No crossing of the map has the number.
    OffTheMap = 2,
    /// The crossing is closed.
    IsClosed = 3,
    /// It is no neighbour of the one before.
    NotANeighbour = 4,
    /// It is not nearer d than the one before.
    NotNearer = 5,
    /// The list ended before d.
    EndedEarly = 6,
    /// The list went on after d.
    WentOn = 7,
}

impl Reason {
    /// Every reason, in the order of their numbers.
    pub const ALL: [Reason; 7] = [
        Reason::WrongStart,
        Reason::OffTheMap,
        Reason::IsClosed,
        Reason::NotANeighbour,
        Reason::NotNearer,
        Reason::EndedEarly,
        Reason::WentOn,
    ];

    /// Its number, as the library and the header have it.
    pub const fn number(self) -> u8 {
        self as u8
    }
}

impl Finding {
    /// From the library's numbers.
    pub(crate) fn new(reason: u8, position: usize) -> Finding {
        let reason = match reason {
            0 => return Finding::Accepted,
            1 => Reason::WrongStart,
            2 => Reason::OffTheMap,
            3 => Reason::IsClosed,
            4 => Reason::NotANeighbour,
            5 => Reason::NotNearer,
            6 => Reason::EndedEarly,
            _ => Reason::WentOn,
        };
        Finding::AtFault(Fault { position, reason })
    }

    /// Whether the list is accepted.
    pub const fn accepted(self) -> bool {
        matches!(self, Finding::Accepted)
    }
}

impl fmt::Display for Fault {
    fn fmt(&self, f: &mut fmt::Formatter<'_>) -> fmt::Result {
        write!(f, "at position {}: {}", self.position, self.reason)
    }
}

impl fmt::Display for Reason {
    fn fmt(&self, f: &mut fmt::Formatter<'_>) -> fmt::Result {
        f.write_str(match self {
            Reason::WrongStart => "wrong start",
            Reason::OffTheMap => "off the map",
            Reason::IsClosed => "closed",
            Reason::NotANeighbour => "not a neighbour",
            Reason::NotNearer => "not nearer d",
            Reason::EndedEarly => "list ended early",
            Reason::WentOn => "list went on after d",
        })
    }
}
