//! Why a plain step was refused with 8.

use super::{Action, ChannelSystemRun, Clock, CsError, CsGuard, Location, PgId, Var};
use crate::{
    Time, TimeRange, Type, Val,
    archive::{self, Failing},
    grammar::{guard_of, variables_of, with_values},
    program_graph::{Clock as PgClock, PgError, Var as PgVar},
};
use std::fmt;

/// The cause of an 8: the lowest process that has no candidate that passes, and what fails of the first candidate that it has.
#[derive(Debug, Clone, PartialEq, Eq)]
pub struct Cause {
    /// The graph.
    pub pg_id: PgId,
    /// The process.
    pub process: u32,
    /// The first candidate: its number among the transitions of the graph, in stored order.
    pub transition: Option<u32>,
    /// What fails.
    pub fails: Fails,
}

/// What fails of a candidate.
#[derive(Debug, Clone, PartialEq, Eq)]
pub enum Fails {
    /// There is none: no transition leads by the action from where the process is to where it was to go.
    NoCandidate,
    /// The guard.
    Guard {
        /// The guard.
        guard: CsGuard,
        /// Its value; none, where it has none.
        value: Option<Val>,
        /// What its variables hold, in the order in which they stand in it.
        held: Vec<(Var, Val)>,
    },
    /// A limit of the transition.
    Limit(Limit),
    /// An invariant of the location where the process was to go.
    Invariant {
        /// The location.
        at: Location,
        /// The invariant, and what the clock would read there.
        limit: Limit,
        /// Whether it would read 0 because the action resets it.
        reset: bool,
    },
}

/// A limit that fails.
#[derive(Debug, Clone, Copy, PartialEq, Eq)]
pub struct Limit {
    /// Its number, in stored order.
    pub number: u32,
    /// The clock.
    pub clock: Clock,
    /// Where the clock has to be.
    pub range: TimeRange,
    /// What it reads.
    pub reads: Time,
}

/// What the parts of a cause are called.
pub(crate) struct Called<'a> {
    pub(crate) location: &'a dyn Fn(Location) -> String,
    pub(crate) var: &'a dyn Fn(Var) -> String,
    pub(crate) clock: &'a dyn Fn(Clock) -> String,
}

impl Cause {
    /// The cause in words.
    pub(crate) fn told(&self, called: &Called<'_>) -> String {
        let limit = |limit: &Limit| limit.range.of(&(called.clock)(limit.clock));
        let fails = match &self.fails {
            Fails::NoCandidate => "no candidate".to_string(),
            Fails::Guard { guard, value, held } => {
                let guard = guard.written(called.var);
                let value = value.map_or_else(|| "has no value".to_string(), |value| format!("is {value}"));
                let held: Vec<String> = held.iter().map(|(var, val)| format!("{} is {val}", (called.var)(*var))).collect();
                let colon = if held.is_empty() { "" } else { ": " };
                format!("guard {guard} {value}{colon}{}", held.join(", "))
            }
            Fails::Limit(failing) => format!("limit {}, {} is {}", limit(failing), (called.clock)(failing.clock), failing.reads),
            Fails::Invariant { at, limit: failing, reset } => {
                let is = if *reset { "is set back to" } else { "is" };
                let (clock, at) = ((called.clock)(failing.clock), (called.location)(*at));
                format!("invariant {} of {at}, {clock} {is} {}", limit(failing), failing.reads)
            }
        };
        format!("process {}: {fails}", self.process)
    }
}

impl fmt::Display for Cause {
    fn fmt(&self, f: &mut fmt::Formatter<'_>) -> fmt::Result {
        f.write_str(&self.told(&Called {
            location: &|location| location.in_graph().to_string(),
            var: &|var| var.in_graph().to_string(),
            clock: &|clock| clock.in_graph().to_string(),
        }))
    }
}

impl ChannelSystemRun<'_> {
    /// Why a plain step would be refused with 8. None, if it would be accepted; another refusal is answered as
    /// [`transition`](Self::transition) answers it. Of a communication the answer is 13: the cause is told of plain steps alone.
    ///
    /// ```
    /// use njunnemar::TimeRange;
    /// use njunnemar::channel_system::{ChannelSystemBuilder, CsError};
    ///
    /// let mut cs_builder = ChannelSystemBuilder::new();
    /// let pg_id = cs_builder.new_program_graph()?;
    /// let (clock, initial) = (cs_builder.new_clock(pg_id)?, cs_builder.new_initial_location(pg_id)?);
    /// let action = cs_builder.new_action(pg_id)?;
    /// cs_builder.add_timed_transition(pg_id, initial, action, initial, None, vec![(clock, TimeRange::new(3..))])?;
    /// let cs = cs_builder.build()?;
    ///
    /// let mut run = cs.new_instance();
    /// run.wait(2)?;
    /// assert_eq!(run.transition(pg_id, action, &[initial]).unwrap_err().number(), 8);
    /// let cause = run.why(pg_id, action, &[initial])?.expect("a cause");
    /// assert_eq!(cause.to_string(), "process 0: limit c0 >= 3, c0 is 2");
    /// # Ok::<(), CsError>(())
    /// ```
    pub fn why(&self, pg_id: PgId, action: Action, post: &[Location]) -> Result<Option<Cause>, CsError> {
        self.why_with(pg_id, action, post, self.next_word())
    }

    /// The same, with this word for draws: an accepted step or a refusal 26 may hang on it, a cause does not.
    pub fn why_with(&self, pg_id: PgId, action: Action, post: &[Location], word: u64) -> Result<Option<Cause>, CsError> {
        let posts: Vec<(u32, u32)> = post.iter().map(|post| (post.0.0, post.1.0)).collect();
        let by = (action.0.0, action.1.0);
        let (table, state) = self.words();
        let failing = archive::why(table, state, pg_id.0, by, &posts, word).map_err(|n| self.step_refused(n, pg_id, action, post))?;
        failing.map(|failing| self.cause(pg_id, action, post, &failing)).transpose()
    }

    fn cause(&self, pg_id: PgId, action: Action, post: &[Location], failing: &Failing) -> Result<Cause, CsError> {
        let limit = |reset: &dyn Fn(u32) -> bool| {
            let [clock, lower, upper] = failing.part[..].try_into().map_err(|_| CsError::BadState)?;
            let clock = clock as u32;
            let reads = if reset(clock) { 0 } else { self.reads(pg_id, PgClock(clock))? };
            let range = TimeRange::of_words([lower, upper]);
            Ok(Limit { number: failing.number, clock: Clock(pg_id, PgClock(clock)), range, reads })
        };
        let fails = match failing.sort {
            1 => self.guard(pg_id, &failing.part)?,
            2 => Fails::Limit(limit(&|_| false)?),
            3 => {
                let at = *post.get(failing.process as usize).ok_or(CsError::BadState)?;
                let reset = |clock| self.words().0.resets(pg_id.0, action.1.0, clock);
                let limit = limit(&reset)?;
                Fails::Invariant { at, limit, reset: reset(limit.clock.1.0) }
            }
            _ => Fails::NoCandidate,
        };
        let transition = (fails != Fails::NoCandidate).then_some(failing.transition);
        Ok(Cause { pg_id, process: failing.process, transition, fails })
    }

    fn reads(&self, pg_id: PgId, clock: PgClock) -> Result<Time, CsError> {
        let of_graph = |refusal: PgError| CsError::ProgramGraph(pg_id, refusal);
        self.program_graph(pg_id)?.clock(clock).map_err(of_graph)
    }

    /// A guard that fails. That it is false, or has no value, is the archive's word on it with the values in the variables' places.
    fn guard(&self, pg_id: PgId, items: &[u64]) -> Result<Fails, CsError> {
        let run = self.program_graph(pg_id)?;
        let held = |var: u32| run.value(PgVar(var)).ok();
        let typed = |var: u32| Some((Var(pg_id, PgVar(var)), held(var)?.r#type()));
        let guard = guard_of(items, &typed).ok_or(CsError::BadState)?;
        let values = with_values(items, &held).ok_or(CsError::BadState)?;
        let value = archive::constant(Type::Boolean, &values);
        let variables = variables_of(items).into_iter();
        let held = variables.filter_map(|var| Some((Var(pg_id, PgVar(var)), held(var)?))).collect();
        Ok(Fails::Guard { guard, value, held })
    }
}
