//! Grainbodkin: the obstacle layer for carts on a grid of crossings.
//!
//! It keeps a list of rock markers, labels the crossings of one rectangular map, tells how many
//! sweeps that takes, gives clear distances, tells whether home is assured, gives the region of
//! shortest drives, makes a drive, checks a drive that was drawn by hand, finds crossing lines and
//! makes the drive by way of where they meet, gives single hops homeward, reads PBM (plain P1 and
//! raw P4) and writes P4, and writes sheets of distances as raw PGM pictures and reads them back.
//! The work is done by the proved static library `liblayer.a`; this crate lends its seventeen calls
//! in Rust's manner, with nothing `unsafe` in its interface.
//!
//! A journey: read a map, label it, ask whether home is assured, hop home.
//!
//! ```
//! use grainbodkin::{Cart, Markers, Place};
//!
//! let markers = Markers::read(b"P1 4 3 0010 0100 0000", 100)?;
//! let cart = Cart::new(20);
//! println!("{}", markers.label(cart)?);
//! let (home, mut place) = (Place::new(0, 0), Place::new(3, 2));
//! let far = home.distance(place);
//! assert!(markers.assured(cart, home, place)?);
//! let mut hops = 0;
//! while let Some(next) = markers.hop(cart, home, place)?.first() {
//!     place = next;
//!     hops += 1;
//! }
//! assert_eq!((place, hops), (home, far));
//! # Ok::<(), grainbodkin::Refusal>(())
//! ```
//!
//! # Carts and stones
//!
//! A [`Marker`] has a height, and a [`Cart`] a ground clearance, both in centimetres: a marker makes
//! its crossing a rock for a cart exactly if it is higher than the clearance. Every asking names the
//! cart that asks, and so does writing a map. Entering names the height. A map file has no heights:
//! what is read from one is as high as can be, [`TALLEST`].
//!
//! # Two forms
//!
//! [`Markers`] owns its list, and its askings take memory for their sheets: they hand back
//! [`Labels`], [`Distances`], [`Region`] and [`Drive`]. [`MarkersRef`] and [`MarkersMut`] borrow
//! the caller's list, sheets and route, and take every value that there is. Both ask the same
//! library: a call answers, or it gives the lowest [`Refusal`] that applies. The borrowing form
//! tests nothing before it. The owning form is made so that its list, map and sheets fit:
//! [`Map::new`] refuses a bad size, and [`Markers::new`] takes no more room than [`MARKERS`] slots.
//!
//! # Stack
//!
//! A call is held to at most [`STACK`] bytes of stack. No compiler checks that a thread has so much
//! left; one that has not ends the process, as any overflow of the stack does.

#![deny(missing_docs, unsafe_code, unsafe_op_in_unsafe_fn)]

mod askings;
#[allow(unsafe_code)]
mod calls;
mod checks;
mod distances;
mod drives;
mod hops;
mod labels;
mod lent;
mod lines;
mod map;
mod marker;
mod markers;
mod pictures;
mod refusal;

pub use grainbodkin_sys::STACK;

pub use checks::{Fault, Finding, Reason};
pub use distances::{Clear, Distances, NO_DISTANCE};
pub use drives::{Chooser, Drive, Region};
pub use hops::Hops;
pub use labels::{Label, Labelling, Labels};
pub use lent::{MarkersMut, MarkersRef};
pub use lines::Lines;
pub use map::{Map, Place, LONGEST_FILE, LONGEST_PICTURE, SIDE};
pub use marker::{Cart, Marker, MARKERS, TALLEST};
pub use markers::Markers;
pub use pictures::{read_sheet, write_sheet, LARGEST, OLD_LARGEST};
pub use refusal::{NoRefusal, Refusal};
