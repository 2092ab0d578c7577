//! The same random conversations through the crate `njunnemar` and through the Rust of scan_core.
//!
//! Every call is made on both. Answers are compared as they print: the two have the same names and shapes, so a refusal has to be the
//! same one and speak of the same part, and an event has to be the same event. After each call both states have to be the same.

pub mod alone;
pub mod chance;
pub mod expressions;
pub mod systems;
pub mod talks;
