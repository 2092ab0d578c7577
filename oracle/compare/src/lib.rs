//! Random scripts of calls, and a comparison of two programs that answer them (README.md).

pub mod chance;
pub mod cut;
pub mod differ;
mod faults;
pub mod graph;
pub mod junk;
pub mod maker;
mod malformed;
mod ordinary;
mod parts;
mod pokes;
pub mod programs;
mod readers;
mod recordings;
mod runs;
pub mod sample;
pub mod script;
mod sizes;
mod system_building;
mod system_faults;
pub mod system_model;
mod system_pokes;
mod system_runs;
pub mod system_script;
pub mod system_table;
pub mod table;
