//! Answers, and how they are written.

use crate::system_answer::SystemAnswer;
use scan_core::{Type, Val};
use std::{fmt, ops::Bound};

/// The reserved action number.
pub const EPSILON: u32 = u32::MAX;

#[derive(Debug, Clone, PartialEq, Eq)]
pub enum Answer {
    Ok,
    /// A new number.
    Number(u32),
    /// The values of a message, or of a variable.
    Values(Vec<Val>),
    /// Where the processes are.
    Places(Vec<u32>),
    Kind(Type),
    /// A value or none, and the rest of the word.
    Evaluated(Option<Val>, u64),
    Yes,
    No,
    Refused(u32),
    /// Past the end of a listing.
    End,
    /// An entry of a listing: action, process, post.
    Entry(u32, u32, u32),
    Range(Bound<u32>, Bound<u32>),
    Sum(u64),
    Run(Vec<u32>, Vec<Val>, Vec<u32>),
    System(SystemAnswer),
    BadLine,
}

impl Answer {
    pub fn yes_or_no(yes: bool) -> Self {
        if yes { Answer::Yes } else { Answer::No }
    }

    /// An answer after which something may have changed.
    pub fn accepted(&self) -> bool {
        match self {
            Answer::System(answer) => answer.accepted(),
            _ => matches!(self, Answer::Ok | Answer::Number(_) | Answer::Values(_)),
        }
    }
}

impl fmt::Display for Answer {
    fn fmt(&self, f: &mut fmt::Formatter<'_>) -> fmt::Result {
        match self {
            Answer::Ok => f.write_str("ok"),
            Answer::Number(number) => write!(f, "ok {number}"),
            Answer::Values(vals) => {
                f.write_str("ok")?;
                vals.iter()
                    .try_for_each(|val| write!(f, " {}", Shown(*val)))
            }
            Answer::Places(places) => {
                f.write_str("ok")?;
                places.iter().try_for_each(|place| write!(f, " {place}"))
            }
            Answer::Kind(Type::Boolean) => f.write_str("ok b"),
            Answer::Kind(Type::Integer) => f.write_str("ok i"),
            Answer::Evaluated(Some(val), rest) => write!(f, "ok {} {rest}", Shown(*val)),
            Answer::Evaluated(None, rest) => write!(f, "none {rest}"),
            Answer::Yes => f.write_str("yes"),
            Answer::No => f.write_str("no"),
            Answer::Refused(number) => write!(f, "refused {number}"),
            Answer::End => f.write_str("end"),
            Answer::Entry(EPSILON, process, post) => write!(f, "ok e {process} {post}"),
            Answer::Entry(action, process, post) => write!(f, "ok {action} {process} {post}"),
            Answer::Range(lower, upper) => write!(f, "ok {} {}", Limit(*lower), Limit(*upper)),
            Answer::Sum(sum) => write!(f, "ok {sum}"),
            Answer::Run(places, vars, clocks) => {
                f.write_str("places")?;
                places.iter().try_for_each(|place| write!(f, " {place}"))?;
                f.write_str(" vars")?;
                vars.iter()
                    .try_for_each(|val| write!(f, " {}", Shown(*val)))?;
                f.write_str(" clocks")?;
                clocks.iter().try_for_each(|clock| write!(f, " {clock}"))
            }
            Answer::System(answer) => answer.fmt(f),
            Answer::BadLine => f.write_str("bad line"),
        }
    }
}

/// A value as the line language writes it.
pub(crate) struct Shown(pub(crate) Val);

impl fmt::Display for Shown {
    fn fmt(&self, f: &mut fmt::Formatter<'_>) -> fmt::Result {
        match self.0 {
            Val::Boolean(b) => write!(f, "b{}", u8::from(b)),
            Val::Integer(i) => write!(f, "i{i}"),
        }
    }
}

/// An end of a range as the line language writes it.
pub(crate) struct Limit(pub(crate) Bound<u32>);

impl fmt::Display for Limit {
    fn fmt(&self, f: &mut fmt::Formatter<'_>) -> fmt::Result {
        match self.0 {
            Bound::Unbounded => f.write_str("*"),
            Bound::Included(time) => write!(f, "={time}"),
            Bound::Excluded(time) => write!(f, "!{time}"),
        }
    }
}
