//! Document 01, and the requests of document 02 that have landed, written again in plain, safe
//! Rust, from their text alone.
//!
//! It is there to be compared with, so it is written to be read beside the document and not to be
//! quick: sets of crossings, whole-map sweeps until nothing changes, looks along whole rows, counts
//! of drives. A module stands for a section of the document. Each public call takes what the lent
//! buffers hold before it and answers everything that can be seen after it: the refusal number (0
//! on success), the answer (zeros at a refusal), and what each buffer that it may write holds then.
#![forbid(unsafe_code)]

pub mod asking;
pub mod checks;
pub mod depots;
pub mod distances;
pub mod drives;
pub mod files;
pub mod following;
pub mod hops;
pub mod labels;
pub mod lines;
pub mod map;
pub mod markers;
pub mod pictures;
pub mod refusals;
pub mod sweeps;
pub mod text;
