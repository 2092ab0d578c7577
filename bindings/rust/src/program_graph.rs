//! Program graphs: locations, actions, typed variables and clocks, and transitions between locations.
//!
//! A transition is by an action, and may ask for a guard over the variables and for limits on the clocks. The action's effects set
//! variables, one after the other, and its resets put clocks back to 0. A location may have invariants, which clocks have to meet
//! while a process is there. A graph has one process or several, which step together.
//!
//! ```
//! use njunnemar::SplitMix;
//! use njunnemar::program_graph::{Location, PgError, ProgramGraphBuilder};
//!
//! // A builder starts empty.
//! let mut pg_builder = ProgramGraphBuilder::new();
//!
//! // A location, and a process that starts there.
//! let initial_loc = pg_builder.new_initial_location()?;
//!
//! // An action, and one more location.
//! let action = pg_builder.new_action()?;
//! let post_loc = pg_builder.new_location()?;
//!
//! // A transition without a guard. It is refused if the builder does not know a location or the action.
//! pg_builder.add_transition(initial_loc, action, post_loc, None)?;
//!
//! // Building is refused if there is no process.
//! let pg = pg_builder.build()?;
//! let mut instance = pg.new_instance();
//!
//! // The process is where it starts.
//! assert_eq!(instance.current_states().as_slice(), &[initial_loc]);
//!
//! // What it may do next: by this action, its process may go to one location.
//! {
//!     let mut iter = instance.possible_transitions();
//!     let (act, mut trans) = iter.next().unwrap();
//!     assert_eq!(act, action);
//!     let post_locs: Vec<Location> = trans.next().unwrap().collect();
//!     assert_eq!(post_locs, vec![post_loc]);
//!     assert!(iter.next().is_none());
//! }
//!
//! // It goes there. Words for draws come from a generator.
//! let mut rng = SplitMix::new(1);
//! instance.transition(action, &[post_loc], &mut rng)?;
//!
//! // Nothing more is possible, and trying is refused.
//! assert!(instance.possible_transitions().next().is_none());
//! let refused = instance.transition(action, &[post_loc], &mut rng);
//! assert_eq!(refused, Err(PgError::UnsatisfiedGuard));
//! # Ok::<(), PgError>(())
//! ```

mod builder;
mod run;

pub use builder::ProgramGraphBuilder;
pub(crate) use builder::{Builder, Known, naming_fault, numbers_of, words_of};
pub use run::ProgramGraphRun;

use crate::{BooleanExpr, Expression, IntegerExpr, TypeError, archive};
use std::fmt;

/// The number of a location.
pub type LocationIdx = u32;
/// The number of an action.
pub type ActionIdx = u32;

/// A number that names a part of a graph. A builder hands it out.
macro_rules! id {
    ($(#[$said:meta])* $name:ident, $letter:literal) => {
        $(#[$said])*
        #[derive(Debug, Clone, Copy, Hash, PartialEq, Eq, PartialOrd, Ord)]
        pub struct $name(pub(crate) u32);

        impl From<$name> for u32 {
            fn from(id: $name) -> u32 {
                id.0
            }
        }

        impl fmt::Display for $name {
            fn fmt(&self, f: &mut fmt::Formatter<'_>) -> fmt::Result {
                write!(f, concat!($letter, "{}"), self.0)
            }
        }
    };
}

id!(
    /// A location of a graph.
    Location, "L"
);
id!(
    /// A variable of a graph.
    Var, "v"
);
id!(
    /// A clock of a graph.
    Clock, "c"
);

/// An action of a graph.
#[derive(Debug, Clone, Copy, Hash, PartialEq, Eq, PartialOrd, Ord)]
pub struct Action(pub(crate) ActionIdx);

impl Action {
    /// The action of autonomous transitions. It has no effects and no resets.
    pub const EPSILON: Action = Action(ActionIdx::MAX);
}

impl From<Action> for ActionIdx {
    fn from(action: Action) -> ActionIdx {
        action.0
    }
}

impl fmt::Display for Action {
    fn fmt(&self, f: &mut fmt::Formatter<'_>) -> fmt::Result {
        match *self {
            Action::EPSILON => f.write_str("epsilon"),
            Action(number) => write!(f, "A{number}"),
        }
    }
}

/// An expression over the variables of a graph.
pub type PgExpression = Expression<Var>;
/// A guard over the variables of a graph.
pub type PgGuard = BooleanExpr<Var>;

impl From<Var> for IntegerExpr<Var> {
    fn from(var: Var) -> Self {
        IntegerExpr::Var(var)
    }
}

impl From<Var> for BooleanExpr<Var> {
    fn from(var: Var) -> Self {
        BooleanExpr::Var(var)
    }
}

/// A refusal by a graph: nothing has changed. [`number`](PgError::number) is its number in docs/RULES.md.
#[derive(Debug, Clone, Copy, PartialEq, Eq)]
pub enum PgError {
    /// 1: the graph has no such action.
    MissingAction(Action),
    /// 2: the graph has no such clock.
    MissingClock(Clock),
    /// 3: the graph has no such location.
    MissingLocation(Location),
    /// 4: the graph has no such variable.
    MissingVar(Var),
    /// 5: a value, an effect or a message of another type or count than asked.
    TypeMismatch,
    /// 6: an expression without a type, or a guard that draws.
    Type(TypeError),
    /// 7: not one post-location for each process.
    MismatchingPostStates,
    /// 8: some process has no transition that passes its guard, its limits and the invariants of its post-location.
    UnsatisfiedGuard,
    /// 9: an invariant that the start, or the end of a wait, does not meet.
    Invariant,
    /// 10: an effect or a reset for [`Action::EPSILON`].
    NoEffects,
    /// 11: an effect or a reset for a send.
    EffectOnSend,
    /// 12: an effect or a reset for a receive.
    EffectOnReceive,
    /// 13: a plain step by an action that is a communication.
    Communication(Action),
    /// 14: a send by an action that is none.
    NotSend(Action),
    /// 15: a receive by an action that is none.
    NotReceive(Action),
    /// 16: a listing for one process, of a graph that has several.
    Sync,
    /// 26: a time past the last one; an effect or a sent expression without a value.
    Overflow,
    /// 28: one more than there is room for.
    TableFull,
    /// 29: a graph without a process is built.
    NoProcess,
    /// 32: a table or a run that is not well formed. Only the archive writes the tables of this crate, so it is not seen.
    BadState,
    /// A number that no rule of a graph has.
    Unnamed(u32),
}

impl PgError {
    /// The number of the refusal.
    pub fn number(&self) -> u32 {
        match self {
            PgError::MissingAction(_) => 1,
            PgError::MissingClock(_) => 2,
            PgError::MissingLocation(_) => 3,
            PgError::MissingVar(_) => 4,
            PgError::TypeMismatch => 5,
            PgError::Type(_) => 6,
            PgError::MismatchingPostStates => 7,
            PgError::UnsatisfiedGuard => 8,
            PgError::Invariant => 9,
            PgError::NoEffects => 10,
            PgError::EffectOnSend => 11,
            PgError::EffectOnReceive => 12,
            PgError::Communication(_) => 13,
            PgError::NotSend(_) => 14,
            PgError::NotReceive(_) => 15,
            PgError::Sync => 16,
            PgError::Overflow => 26,
            PgError::TableFull => 28,
            PgError::NoProcess => 29,
            PgError::BadState => 32,
            PgError::Unnamed(number) => *number,
        }
    }

    /// The name of the refusal, as docs/RULES.md has it.
    pub fn name(&self) -> &'static str {
        match self {
            PgError::MissingAction(_) => "MissingAction",
            PgError::MissingClock(_) => "MissingClock",
            PgError::MissingLocation(_) => "MissingLocation",
            PgError::MissingVar(_) => "MissingVar",
            PgError::TypeMismatch => "TypeMismatch",
            PgError::Type(_) => "Type",
            PgError::MismatchingPostStates => "MismatchingPostStates",
            PgError::UnsatisfiedGuard => "UnsatisfiedGuard",
            PgError::Invariant => "Invariant",
            PgError::NoEffects => "NoEffects",
            PgError::EffectOnSend => "EffectOnSend",
            PgError::EffectOnReceive => "EffectOnReceive",
            PgError::Communication(_) => "Communication",
            PgError::NotSend(_) => "NotSend",
            PgError::NotReceive(_) => "NotReceive",
            PgError::Sync => "Sync",
            PgError::Overflow => "Overflow",
            PgError::TableFull => "TableFull",
            PgError::NoProcess => "NoProcess",
            PgError::BadState => "BadState",
            PgError::Unnamed(_) => "Unnamed",
        }
    }

    /// The refusal of a number, with what the call named.
    pub(crate) fn of(number: u32, named: Named) -> Self {
        let refusal = match number {
            1 => named.action.map(PgError::MissingAction),
            2 => named.clock.map(PgError::MissingClock),
            3 => named.location.map(PgError::MissingLocation),
            4 => named.var.map(PgError::MissingVar),
            5 => Some(PgError::TypeMismatch),
            6 => Some(PgError::Type(named.fault.unwrap_or(TypeError::TypeMismatch))),
            7 => Some(PgError::MismatchingPostStates),
            8 => Some(PgError::UnsatisfiedGuard),
            9 => Some(PgError::Invariant),
            10 => Some(PgError::NoEffects),
            11 => Some(PgError::EffectOnSend),
            12 => Some(PgError::EffectOnReceive),
            13 => named.action.map(PgError::Communication),
            14 => named.action.map(PgError::NotSend),
            15 => named.action.map(PgError::NotReceive),
            16 => Some(PgError::Sync),
            26 => Some(PgError::Overflow),
            28 => Some(PgError::TableFull),
            29 => Some(PgError::NoProcess),
            32 => Some(PgError::BadState),
            _ => None,
        };
        refusal.unwrap_or(PgError::Unnamed(number))
    }
}

/// What a call named, for the refusal that speaks of it.
#[derive(Clone, Copy, Default)]
pub(crate) struct Named {
    pub(crate) action: Option<Action>,
    pub(crate) clock: Option<Clock>,
    pub(crate) location: Option<Location>,
    pub(crate) var: Option<Var>,
    pub(crate) fault: Option<TypeError>,
}

impl fmt::Display for PgError {
    fn fmt(&self, f: &mut fmt::Formatter<'_>) -> fmt::Result {
        match self {
            PgError::MissingAction(action) => write!(f, "the graph has no action {action}"),
            PgError::MissingClock(clock) => write!(f, "the graph has no clock {clock}"),
            PgError::MissingLocation(location) => write!(f, "the graph has no location {location}"),
            PgError::MissingVar(var) => write!(f, "the graph has no variable {var}"),
            PgError::TypeMismatch => f.write_str("values of another type or count than asked"),
            PgError::Type(fault) => write!(f, "an expression that may not stand here: {fault}"),
            PgError::MismatchingPostStates => f.write_str("not one post-location for each process"),
            PgError::UnsatisfiedGuard => f.write_str("no transition there passes its guard, its limits and the invariants"),
            PgError::Invariant => f.write_str("a time invariant stands against it"),
            PgError::NoEffects => f.write_str("epsilon has no effects and no resets"),
            PgError::EffectOnSend => f.write_str("a send has no effects and no resets"),
            PgError::EffectOnReceive => f.write_str("a receive has no effects and no resets"),
            PgError::Communication(action) => {
                write!(f, "{action} is a communication, and no plain action")
            }
            PgError::NotSend(action) => write!(f, "{action} is no send"),
            PgError::NotReceive(action) => write!(f, "{action} is no receive"),
            PgError::Sync => f.write_str("the graph has not exactly one process"),
            PgError::Overflow => f.write_str("a time past 4294967295, or an expression without a value"),
            PgError::TableFull => f.write_str("one more than there is room for"),
            PgError::NoProcess => f.write_str("a graph without a process"),
            PgError::BadState => f.write_str("a table or a run that is not well formed"),
            PgError::Unnamed(number) => write!(f, "refusal {number}"),
        }
    }
}

impl std::error::Error for PgError {
    fn source(&self) -> Option<&(dyn std::error::Error + 'static)> {
        match self {
            PgError::Type(fault) => Some(fault),
            _ => None,
        }
    }
}

/// A graph that was built: its table, which no longer changes.
///
/// ```
/// use njunnemar::program_graph::{PgError, ProgramGraphBuilder};
/// use njunnemar::SplitMix;
///
/// let mut pg_builder = ProgramGraphBuilder::new();
/// let initial = pg_builder.new_initial_location()?;
/// pg_builder.add_autonomous_transition(initial, initial, None)?;
/// let pg_def = pg_builder.build()?;
///
/// // Runs borrow the graph: several of one graph are cheap.
/// let mut pg = pg_def.new_instance();
///
/// // The one transition that is possible, and it is taken.
/// let (e, mut post_locs) = pg.possible_transitions().last().expect("autonomous transition");
/// let post_loc = post_locs.next().expect("a process").last().expect("a post-location");
/// assert_eq!(post_loc, initial);
/// pg.transition(e, &[initial], &mut SplitMix::new(0))?;
/// # Ok::<(), PgError>(())
/// ```
#[derive(Debug, Clone)]
pub struct ProgramGraph {
    pub(crate) table: archive::GraphTable,
    pub(crate) known: Known,
}

impl ProgramGraph {
    /// A run of the graph, at its start.
    pub fn new_instance(&self) -> ProgramGraphRun<'_> {
        ProgramGraphRun::new(self)
    }
}
