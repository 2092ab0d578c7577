//! Channel systems: graphs that step one at a time and exchange messages over channels.
//!
//! A channel has the types of its messages' values, and a queue with a bound, one without, or no queue at all (a sink). Some actions
//! of a graph are communications: a send puts values behind a queue's end, a receive takes the oldest message into variables, a probe
//! passes if the queue is empty, or if it is full.
//!
//! ```
//! use njunnemar::*;
//! use njunnemar::channel_system::*;
//!
//! let mut cs_builder = ChannelSystemBuilder::new();
//!
//! // A graph with one location, where its process starts.
//! let pg_1 = cs_builder.new_program_graph()?;
//! let initial_1 = cs_builder.new_initial_location(pg_1)?;
//!
//! // A channel of integers, with room for one.
//! let chn = cs_builder.new_channel(vec![Type::Integer], Some(1))?;
//!
//! // The graph sends 1 to it.
//! let send = cs_builder.new_send(pg_1, chn, vec![CsExpression::from(1)])?;
//! cs_builder.add_transition(pg_1, initial_1, send, initial_1, None)?;
//!
//! // A second graph receives from it into a variable.
//! let pg_2 = cs_builder.new_program_graph()?;
//! let initial_2 = cs_builder.new_initial_location(pg_2)?;
//! let var = cs_builder.new_var(pg_2, Val::from(0))?;
//! let receive = cs_builder.new_receive(pg_2, chn, vec![var])?;
//! cs_builder.add_transition(pg_2, initial_2, receive, initial_2, None)?;
//!
//! let cs = cs_builder.build()?;
//! let mut instance = cs.new_instance();
//!
//! // The channel is empty, so only pg_1 can step, by its send.
//! {
//!     let mut iter = instance.possible_transitions();
//!     let (pg, action, mut trans) = iter.next().unwrap();
//!     assert_eq!(pg, pg_1);
//!     assert_eq!(action, send);
//!     let post_locs: Vec<Location> = trans.next().unwrap().collect();
//!     assert_eq!(post_locs, vec![initial_1]);
//!     assert!(iter.next().is_none());
//! }
//!
//! // It does, and the channel is full.
//! let event = instance.transition(pg_1, send, &[initial_1])?.expect("a message was sent");
//! assert_eq!(event.event_type, EventType::Send(vec![Val::from(1)]));
//!
//! // Now only pg_2 can step, by its receive.
//! {
//!     let mut iter = instance.possible_transitions();
//!     let (pg, action, mut trans) = iter.next().unwrap();
//!     assert_eq!(pg, pg_2);
//!     assert_eq!(action, receive);
//!     let post_locs: Vec<Location> = trans.next().unwrap().collect();
//!     assert_eq!(post_locs, vec![initial_2]);
//!     assert!(iter.next().is_none());
//! }
//!
//! // It does, and the channel is empty again.
//! instance.transition(pg_2, receive, &[initial_2])?;
//! # Ok::<(), CsError>(())
//! ```

mod builder;
mod cause;
mod run;

pub use builder::ChannelSystemBuilder;
pub(crate) use cause::Called;
pub use cause::{Cause, Fails, Limit};
pub use run::ChannelSystemRun;

use crate::{
    BooleanExpr, Expression, IntegerExpr, Type, Val,
    archive::SystemTable,
    program_graph::{Action as PgAction, Clock as PgClock, Location as PgLocation, Named, PgError, ProgramGraph, Var as PgVar},
};
use std::fmt;

/// A graph of a system.
#[derive(Debug, Clone, Copy, Hash, PartialEq, Eq, PartialOrd, Ord)]
pub struct PgId(pub(crate) u32);

impl From<PgId> for u32 {
    fn from(pg_id: PgId) -> u32 {
        pg_id.0
    }
}

impl fmt::Display for PgId {
    fn fmt(&self, f: &mut fmt::Formatter<'_>) -> fmt::Result {
        write!(f, "graph {}", self.0)
    }
}

/// A channel of a system.
#[derive(Debug, Clone, Copy, Hash, PartialEq, Eq, PartialOrd, Ord)]
pub struct Channel(pub(crate) u32);

impl From<Channel> for u32 {
    fn from(channel: Channel) -> u32 {
        channel.0
    }
}

impl fmt::Display for Channel {
    fn fmt(&self, f: &mut fmt::Formatter<'_>) -> fmt::Result {
        write!(f, "channel {}", self.0)
    }
}

/// A part of one of a system's graphs: the graph, and the part.
macro_rules! part {
    ($(#[$said:meta])* $name:ident, $of:ident) => {
        $(#[$said])*
        #[derive(Debug, Clone, Copy, Hash, PartialEq, Eq, PartialOrd, Ord)]
        pub struct $name(pub(crate) PgId, pub(crate) $of);

        impl $name {
            /// The graph that it belongs to.
            pub fn pg_id(self) -> PgId {
                self.0
            }

            /// What the graph itself calls it.
            pub fn in_graph(self) -> $of {
                self.1
            }
        }

        impl fmt::Display for $name {
            fn fmt(&self, f: &mut fmt::Formatter<'_>) -> fmt::Result {
                write!(f, "{} of {}", self.1, self.0)
            }
        }
    };
}

part!(
    /// A location of a graph of a system.
    Location, PgLocation
);
part!(
    /// An action of a graph of a system.
    Action, PgAction
);
part!(
    /// A variable of a graph of a system.
    Var, PgVar
);
part!(
    /// A clock of a graph of a system.
    Clock, PgClock
);

impl Action {
    /// The action of autonomous transitions of a graph.
    pub fn epsilon(pg_id: PgId) -> Self {
        Action(pg_id, PgAction::EPSILON)
    }
}

/// An expression over the variables of a graph of a system.
pub type CsExpression = Expression<Var>;
/// A guard over the variables of a graph of a system.
pub type CsGuard = BooleanExpr<Var>;

impl From<Var> for IntegerExpr<Var> {
    fn from(var: Var) -> Self {
        IntegerExpr::Var(var)
    }
}

impl From<Var> for BooleanExpr<Var> {
    fn from(var: Var) -> Self {
        BooleanExpr::Var(var)
    }
}

/// What a communication does.
#[derive(Debug, Clone, Copy, Hash, PartialEq, Eq)]
pub enum Message {
    /// Puts values behind a queue's end.
    Send,
    /// Takes the oldest message of a queue into variables.
    Receive,
    /// Passes if the queue is empty.
    ProbeEmptyQueue,
    /// Passes if the queue is full.
    ProbeFullQueue,
}

/// How much a channel stores.
#[derive(Debug, Clone, Copy, PartialEq, Eq)]
pub enum ChannelCapacity {
    /// A queue: with a bound, which is a number of values, or without one (then it has room for 64).
    Queue(Option<u32>),
    /// It takes every message and stores none.
    Sink,
}

impl From<Option<u32>> for ChannelCapacity {
    fn from(bound: Option<u32>) -> Self {
        ChannelCapacity::Queue(bound)
    }
}

/// An accepted communication.
#[derive(Debug, Clone, PartialEq, Eq)]
pub struct Event {
    /// The graph that stepped.
    pub pg_id: PgId,
    /// The channel.
    pub channel: Channel,
    /// What was done, with the message's values.
    pub event_type: EventType,
}

/// What was done on a channel.
#[derive(Debug, Clone, PartialEq, Eq)]
pub enum EventType {
    /// These values were sent.
    Send(Vec<Val>),
    /// These values were received.
    Receive(Vec<Val>),
    /// The queue was empty.
    ProbeEmptyQueue,
    /// The queue was full.
    ProbeFullQueue,
}

/// A refusal by a system: nothing has changed. [`number`](CsError::number) is its number in docs/RULES.md.
#[derive(Debug, Clone, Copy, PartialEq, Eq)]
pub enum CsError {
    /// A graph of the system refused.
    ProgramGraph(PgId, PgError),
    /// 17: the system has no such graph.
    MissingPg(PgId),
    /// 18: the action is one of another graph.
    ActionNotInPg(Action, PgId),
    /// 19: the location is one of another graph.
    LocationNotInPg(Location, PgId),
    /// 4: the variable is one of another graph. This crate's own test.
    VarNotInPg(Var, PgId),
    /// 2: the clock is one of another graph. This crate's own test.
    ClockNotInPg(Clock, PgId),
    /// 20: the queue is full.
    OutOfCapacity(Channel),
    /// 21: there is nothing to receive.
    Empty(Channel),
    /// 22: the queue is not empty.
    NotEmpty(Channel),
    /// 23: the queue is not full.
    NotFull(Channel),
    /// 24: a probe where the capacity is 0.
    ProbingHandshakeChannel(Channel),
    /// 25: a full probe of a queue without a bound.
    ProbingInfiniteQueue(Channel),
    /// 26: a wait past the last time.
    Overflow,
    /// 27: a queue without a bound has no room for the message.
    NoRoom(Channel),
    /// 28: one more graph or channel than there is room for, or more than four types.
    TableFull,
    /// 29: some graph has no process.
    NoProcess,
    /// 30: the system has no such channel.
    MissingChannel(Channel),
    /// 31: a queue that would hold more than 64 values.
    ChannelTooLarge,
    /// 32: a table or a state that is not well formed. Only the archive writes those of this crate, so it is not seen.
    BadState,
    /// A number that no rule has.
    Unnamed(u32),
}

impl CsError {
    /// The number of the refusal.
    pub fn number(&self) -> u32 {
        match self {
            CsError::ProgramGraph(_, refusal) => refusal.number(),
            CsError::MissingPg(_) => 17,
            CsError::ActionNotInPg(..) => 18,
            CsError::LocationNotInPg(..) => 19,
            CsError::VarNotInPg(..) => 4,
            CsError::ClockNotInPg(..) => 2,
            CsError::OutOfCapacity(_) => 20,
            CsError::Empty(_) => 21,
            CsError::NotEmpty(_) => 22,
            CsError::NotFull(_) => 23,
            CsError::ProbingHandshakeChannel(_) => 24,
            CsError::ProbingInfiniteQueue(_) => 25,
            CsError::Overflow => 26,
            CsError::NoRoom(_) => 27,
            CsError::TableFull => 28,
            CsError::NoProcess => 29,
            CsError::MissingChannel(_) => 30,
            CsError::ChannelTooLarge => 31,
            CsError::BadState => 32,
            CsError::Unnamed(number) => *number,
        }
    }

    /// The name of the refusal, as docs/RULES.md has it; of a graph's refusal, the graph's.
    pub fn name(&self) -> &'static str {
        match self {
            CsError::ProgramGraph(_, refusal) => refusal.name(),
            CsError::MissingPg(_) => "MissingPg",
            CsError::ActionNotInPg(..) => "ActionNotInPg",
            CsError::LocationNotInPg(..) => "LocationNotInPg",
            CsError::VarNotInPg(..) => "VarNotInPg",
            CsError::ClockNotInPg(..) => "ClockNotInPg",
            CsError::OutOfCapacity(_) => "OutOfCapacity",
            CsError::Empty(_) => "Empty",
            CsError::NotEmpty(_) => "NotEmpty",
            CsError::NotFull(_) => "NotFull",
            CsError::ProbingHandshakeChannel(_) => "ProbingHandshakeChannel",
            CsError::ProbingInfiniteQueue(_) => "ProbingInfiniteQueue",
            CsError::Overflow => "Overflow",
            CsError::NoRoom(_) => "NoRoom",
            CsError::TableFull => "TableFull",
            CsError::NoProcess => "NoProcess",
            CsError::MissingChannel(_) => "MissingChannel",
            CsError::ChannelTooLarge => "ChannelTooLarge",
            CsError::BadState => "BadState",
            CsError::Unnamed(_) => "Unnamed",
        }
    }

    /// The refusal of a call on the system as a whole.
    pub(crate) fn of_system(number: u32) -> Self {
        match number {
            26 => CsError::Overflow,
            28 => CsError::TableFull,
            29 => CsError::NoProcess,
            31 => CsError::ChannelTooLarge,
            32 => CsError::BadState,
            _ => CsError::Unnamed(number),
        }
    }

    /// The refusal of a call on a channel.
    pub(crate) fn of_channel(number: u32, channel: Channel) -> Option<Self> {
        Some(match number {
            20 => CsError::OutOfCapacity(channel),
            21 => CsError::Empty(channel),
            22 => CsError::NotEmpty(channel),
            23 => CsError::NotFull(channel),
            24 => CsError::ProbingHandshakeChannel(channel),
            25 => CsError::ProbingInfiniteQueue(channel),
            27 => CsError::NoRoom(channel),
            30 => CsError::MissingChannel(channel),
            _ => return None,
        })
    }
}

/// The name of the refusal with this number, as docs/RULES.md has it. A replay tells answers by their numbers.
///
/// ```
/// use njunnemar::channel_system::refusal_name;
///
/// assert_eq!((refusal_name(8), refusal_name(0)), (Some("UnsatisfiedGuard"), None));
/// ```
pub fn refusal_name(number: u32) -> Option<&'static str> {
    let (pg_id, channel) = (PgId(0), Channel(0));
    let named =
        Named { action: Some(PgAction(0)), clock: Some(PgClock(0)), location: Some(PgLocation(0)), var: Some(PgVar(0)), fault: None };
    let of_graph = match PgError::of(number, named) {
        PgError::Unnamed(_) => None,
        refusal => Some(CsError::ProgramGraph(pg_id, refusal)),
    };
    let refusal = of_graph.or_else(|| CsError::of_channel(number, channel)).unwrap_or_else(|| match number {
        17 => CsError::MissingPg(pg_id),
        18 => CsError::ActionNotInPg(Action(pg_id, PgAction(0)), pg_id),
        19 => CsError::LocationNotInPg(Location(pg_id, PgLocation(0)), pg_id),
        _ => CsError::of_system(number),
    });
    (!matches!(refusal, CsError::Unnamed(_))).then(|| refusal.name())
}

impl fmt::Display for CsError {
    fn fmt(&self, f: &mut fmt::Formatter<'_>) -> fmt::Result {
        match self {
            CsError::ProgramGraph(pg_id, refusal) => write!(f, "{pg_id}: {refusal}"),
            CsError::MissingPg(pg_id) => write!(f, "the system has no {pg_id}"),
            CsError::ActionNotInPg(action, pg_id) => {
                write!(f, "action {action}, and not of {pg_id}")
            }
            CsError::LocationNotInPg(location, pg_id) => {
                write!(f, "location {location}, and not of {pg_id}")
            }
            CsError::VarNotInPg(var, pg_id) => write!(f, "variable {var}, and not of {pg_id}"),
            CsError::ClockNotInPg(clock, pg_id) => write!(f, "clock {clock}, and not of {pg_id}"),
            CsError::OutOfCapacity(channel) => write!(f, "{channel} is full"),
            CsError::Empty(channel) => write!(f, "{channel} has nothing to receive"),
            CsError::NotEmpty(channel) => write!(f, "{channel} is not empty"),
            CsError::NotFull(channel) => write!(f, "{channel} is not full"),
            CsError::ProbingHandshakeChannel(channel) => {
                write!(f, "{channel} has capacity 0 and cannot be probed")
            }
            CsError::ProbingInfiniteQueue(channel) => {
                write!(f, "{channel} has no bound, so it is never full")
            }
            CsError::Overflow => f.write_str("a time past 4294967295"),
            CsError::NoRoom(channel) => write!(f, "{channel} has no room for the message"),
            CsError::TableFull => f.write_str("one more than there is room for"),
            CsError::NoProcess => f.write_str("a graph without a process"),
            CsError::MissingChannel(channel) => write!(f, "the system has no {channel}"),
            CsError::ChannelTooLarge => f.write_str("a queue that would hold more than 64 values"),
            CsError::BadState => f.write_str("a table or a state that is not well formed"),
            CsError::Unnamed(number) => write!(f, "refusal {number}"),
        }
    }
}

impl std::error::Error for CsError {
    fn source(&self) -> Option<&(dyn std::error::Error + 'static)> {
        match self {
            CsError::ProgramGraph(_, refusal) => Some(refusal),
            _ => None,
        }
    }
}

/// A channel's types, and how much it stores.
pub(crate) type ChannelData = (Vec<Type>, ChannelCapacity);

/// Of each action of a graph, the channel and what is done there, if it is a communication.
pub(crate) type Communications = Vec<Option<(Channel, Message)>>;

/// A system that was built: its table, which no longer changes.
///
/// ```
/// use njunnemar::channel_system::{ChannelSystemBuilder, CsError};
///
/// let mut cs_builder = ChannelSystemBuilder::new();
/// let pg_id = cs_builder.new_program_graph()?;
/// let initial = cs_builder.new_initial_location(pg_id)?;
/// cs_builder.add_autonomous_transition(pg_id, initial, initial, None)?;
/// let cs_def = cs_builder.build()?;
///
/// // Runs borrow the system: several of one system are cheap.
/// let mut cs = cs_def.new_instance();
///
/// // The one transition that is possible, and it is taken.
/// let (pg_id_trans, e, mut post_locs) = cs.possible_transitions().last().expect("a transition");
/// assert_eq!(pg_id_trans, pg_id);
/// let post_loc = post_locs.next().expect("a process").last().expect("a post-location");
/// assert_eq!(post_loc, initial);
/// cs.transition(pg_id, e, &[initial])?;
/// # Ok::<(), CsError>(())
/// ```
#[derive(Debug, Clone)]
pub struct ChannelSystem {
    pub(crate) table: SystemTable,
    pub(crate) channels: Vec<ChannelData>,
    pub(crate) communications: Vec<Communications>,
    pub(crate) program_graphs: Vec<ProgramGraph>,
}

impl ChannelSystem {
    /// A run of the system, at its start; its draws are from seed 0.
    pub fn new_instance(&self) -> ChannelSystemRun<'_> {
        ChannelSystemRun::new(self)
    }

    /// A run of the system, at its start; its draws are from this seed.
    pub fn new_seeded_instance(&self, seed: u64) -> ChannelSystemRun<'_> {
        ChannelSystemRun::seeded(self, seed)
    }

    /// The graphs, each as one of its own.
    pub fn program_graphs(&self) -> &[ProgramGraph] {
        &self.program_graphs
    }

    /// The names of the graphs.
    pub fn program_graph_ids(&self) -> impl Iterator<Item = PgId> + use<> {
        (0..self.program_graphs.len() as u32).map(PgId)
    }

    /// The channels: their types, and how much they store.
    pub fn channels(&self) -> &[(Vec<Type>, ChannelCapacity)] {
        &self.channels
    }

    /// The types of a channel, and how much it stores.
    pub fn channel(&self, channel: Channel) -> Result<(&[Type], ChannelCapacity), CsError> {
        let found = self.channels.get(channel.0 as usize);
        let (types, capacity) = found.ok_or(CsError::MissingChannel(channel))?;
        Ok((types, *capacity))
    }

    /// What a communication does, and where; none of a plain action or an unknown one.
    pub fn communication(&self, action: Action) -> Option<(Channel, Message)> {
        let of_graph = self.communications.get(action.0.0 as usize)?;
        *of_graph.get(action.1.0 as usize)?
    }
}
