//! The independent program held to document 01: its settled examples, its errors that look
//! reasonable, its refusals and its map files; and to document 02's requests 08, its stones,
//! and 10, its sweeps.
mod common;
mod errors;
mod examples;
mod mapfiles;
mod refusals;
mod stones;
mod sweeps;
