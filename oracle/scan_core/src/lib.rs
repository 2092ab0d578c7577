//! The Rust text of `scan_core`, its graph and channel layers, unchanged; with test code for the grammar and the builder of
//! systems, which are not at hand.

#![forbid(unsafe_code)]

mod grammar;

// `program_graph`, `channel_system` and `time`, as build.rs laid them out.
include!(concat!(env!("OUT_DIR"), "/text.rs"));

pub use grammar::*;
pub use time::*;
