//! Answers of the channel layer that one graph does not have, and how they are written.

use crate::answer::{Answer, EPSILON, Shown};
use crate::running::Run;
use crate::system_table::{Capacity, Kind, Parts};
use crate::why::Cause;
use scan_core::{Type, Val};
use std::fmt;

#[derive(Debug, Clone, PartialEq, Eq)]
pub enum SystemAnswer {
    /// An accepted communication: graph, channel, kind, values.
    Event(u32, u32, Kind, Vec<Val>),
    /// 9, and the lowest graph that objects to a wait.
    Objects(u32),
    /// An entry of the listing: graph, action, process, post.
    Entry(u32, u32, u32, u32),
    Channel(Vec<Type>, Capacity),
    Run(Box<Run>),
    State(Box<Parts>),
    /// 8, the process that a cause is of, and the cause.
    Why(usize, Cause),
    /// A replay: the bad block.
    Block(usize),
    /// Block, record, recorded number, given number.
    Record(usize, usize, u32, u32),
}

impl SystemAnswer {
    pub fn accepted(&self) -> bool {
        matches!(self, SystemAnswer::Event(..))
    }
}

/// A run as `r show` writes it.
pub fn shown_run(run: &Run) -> Answer {
    Answer::Run(
        run.used_places().to_vec(),
        run.used_vars().to_vec(),
        run.used_clocks().to_vec(),
    )
}

impl fmt::Display for SystemAnswer {
    fn fmt(&self, f: &mut fmt::Formatter<'_>) -> fmt::Result {
        match self {
            SystemAnswer::Event(graph, channel, kind, vals) => {
                write!(f, "ok {graph} {channel} {}", kind.name())?;
                values(f, vals)
            }
            SystemAnswer::Why(process, cause) => write!(f, "refused 8 {process} {cause}"),
            SystemAnswer::Objects(graph) => write!(f, "refused 9 {graph}"),
            SystemAnswer::Entry(graph, EPSILON, process, post) => {
                write!(f, "ok {graph} e {process} {post}")
            }
            SystemAnswer::Entry(graph, action, process, post) => {
                write!(f, "ok {graph} {action} {process} {post}")
            }
            SystemAnswer::Channel(kinds, capacity) => {
                f.write_str("ok ")?;
                if kinds.is_empty() {
                    f.write_str("-")?;
                }
                for kind in kinds {
                    f.write_str(if *kind == Type::Boolean { "b" } else { "i" })?;
                }
                match capacity {
                    Capacity::Bounded(most) => write!(f, " q{most}"),
                    Capacity::Unbounded => f.write_str(" q*"),
                    Capacity::Sink => f.write_str(" sink"),
                }
            }
            SystemAnswer::Block(block) => write!(f, "block {block}"),
            SystemAnswer::Record(block, record, recorded, given) => {
                write!(f, "record {block} {record} {recorded} {given}")
            }
            SystemAnswer::Run(run) => write!(f, "ok {}", shown_run(run)),
            SystemAnswer::State(parts) => {
                write!(f, "time {}", parts.time)?;
                for run in &parts.runs {
                    write!(f, " | {}", shown_run(run))?;
                }
                for queue in &parts.queues {
                    f.write_str(" | queue")?;
                    values(f, queue)?;
                }
                Ok(())
            }
        }
    }
}

fn values(f: &mut fmt::Formatter<'_>, vals: &[Val]) -> fmt::Result {
    vals.iter()
        .try_for_each(|val| write!(f, " {}", Shown(*val)))
}
