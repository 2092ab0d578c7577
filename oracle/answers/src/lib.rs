//! Answers the lines of the line language: by the Rust where it has an answer, and by the rules everywhere.

mod alone;
pub mod answer;
pub mod building;
pub mod call;
pub mod expression;
pub mod lines;
pub mod oracle;
mod recording;
pub mod running;
pub mod rust;
pub mod system_answer;
pub mod system_building;
pub mod system_call;
pub mod system_oracle;
pub mod system_running;
pub mod system_rust;
pub mod system_table;
pub mod table;
pub mod why;
