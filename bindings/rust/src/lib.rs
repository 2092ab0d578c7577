//! Timed program graphs and channel systems, with the names and shapes of `scan_core`, stepped by a verified archive.
//!
//! The archive is Njunnemar's: a port of scan_core's stepper whose every call is proved to give the answer that a short definition states,
//! and never to fail. This crate owns the memory that the archive works on, and puts Rust's types around its calls. A call that is
//! refused answers an error with the number of docs/RULES.md, and leaves everything as it was.
//!
//! Where it departs from scan_core:
//!
//! - Every building call may be refused, since tables have a fixed size ([`PgError::TableFull`](program_graph::PgError)); so each
//!   answers a `Result`, and so does `build`, which asks for a process.
//! - What panics there is refused here. Above all a receive whose guard is false: its message stays in the queue.
//! - Integers have 32 bits; there are no naturals and no floats.
//! - Draws take the bits of a word. A run of a system has a seeded generator of its own; a run of a graph takes a [`Rng`].
//! - An action by which no process may go anywhere is not listed.
//!
//! docs/DIFFERENCES.md has the rest. An expression is a tree of boxes, and is read by recursion: keep it below some thousands
//! of levels. More than 64 items are refused anyway.

#![warn(missing_docs)]
#![deny(unsafe_code)]

mod archive;
pub mod channel_system;
mod grammar;
#[cfg(test)]
mod hostile;
mod listing;
mod names;
pub mod program_graph;
mod random;
pub mod recording;
mod time;

pub use grammar::{BooleanExpr, Expression, Integer, IntegerExpr, Type, TypeError, Val};
pub use listing::Posts;
pub use names::Names;
pub use random::{Rng, SplitMix};
pub use time::{Time, TimeRange};
