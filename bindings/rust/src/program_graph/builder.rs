//! Building a graph, alone or as one of a system's.

use super::{Action, Clock, Location, Named, PgError, PgExpression, PgGuard, ProgramGraph, Var};
use crate::{
    TimeRange, Type, Val,
    archive::{self, GraphTable, Place},
    grammar::Items,
};

/// What a builder knows of a graph beside its table: enough to say which part a refusal speaks of.
#[derive(Debug, Clone, Default)]
pub(crate) struct Known {
    pub(crate) vars: Vec<Type>,
    pub(crate) clocks: u32,
    pub(crate) locations: u32,
    pub(crate) processes: usize,
}

impl Known {
    /// A variable's number, and its type if the graph has it.
    pub(crate) fn found(&self, var: Var) -> Option<(u32, Option<Type>)> {
        Some((var.0, self.vars.get(var.0 as usize).copied()))
    }

    fn unknown_clock(&self, limits: &[(Clock, TimeRange)]) -> Option<Clock> {
        let clocks = limits.iter().map(|(clock, _)| *clock);
        clocks.into_iter().find(|clock| clock.0 >= self.clocks)
    }

    pub(crate) fn unknown_location(&self, locations: &[Location]) -> Option<Location> {
        let mut locations = locations.iter().copied();
        locations.find(|location| location.0 >= self.locations)
    }

    pub(crate) fn unknown_var(&self, vars: &[Var]) -> Option<Var> {
        let mut vars = vars.iter().copied();
        vars.find(|var| var.0 as usize >= self.vars.len())
    }
}

/// The building calls on a graph, wherever it stands.
pub(crate) struct Builder<'a> {
    pub(crate) place: Place<'a>,
    pub(crate) known: &'a mut Known,
}

impl Builder<'_> {
    pub(crate) fn new_var(self, val: Val) -> Result<Var, PgError> {
        let number = archive::new_var(self.place, val).map_err(plain)?;
        self.known.vars.push(val.r#type());
        Ok(Var(number))
    }

    pub(crate) fn new_clock(self) -> Result<Clock, PgError> {
        let number = archive::new_clock(self.place).map_err(plain)?;
        self.known.clocks += 1;
        Ok(Clock(number))
    }

    pub(crate) fn new_action(self) -> Result<Action, PgError> {
        archive::new_action(self.place).map(Action).map_err(plain)
    }

    pub(crate) fn add_reset(self, action: Action, clock: Clock) -> Result<(), PgError> {
        let named = Named { action: Some(action), clock: Some(clock), ..Named::default() };
        archive::add_reset(self.place, action.0, clock.0).map_err(|n| PgError::of(n, named))
    }

    pub(crate) fn add_effect(self, action: Action, var: Var, effect: &Items) -> Result<(), PgError> {
        let named = Named { action: Some(action), var: Some(var), fault: Some(effect.fault()), ..Named::default() };
        archive::add_effect(self.place, action.0, var.0, effect.words()).map_err(|n| PgError::of(n, named))
    }

    pub(crate) fn new_location(self, invariants: &[(Clock, TimeRange)]) -> Result<Location, PgError> {
        let named = self.naming_clock(invariants);
        let number = archive::new_timed_location(self.place, &limits(invariants)).map_err(|n| PgError::of(n, named))?;
        self.known.locations += 1;
        Ok(Location(number))
    }

    pub(crate) fn new_process(self, location: Location) -> Result<(), PgError> {
        let named = Named { location: Some(location), ..Named::default() };
        archive::new_process(self.place, location.0).map_err(|n| PgError::of(n, named))?;
        self.known.processes += 1;
        Ok(())
    }

    pub(crate) fn new_initial(self, invariants: &[(Clock, TimeRange)]) -> Result<Location, PgError> {
        let named = self.naming_clock(invariants);
        let number = archive::new_initial_timed_location(self.place, &limits(invariants)).map_err(|n| PgError::of(n, named))?;
        self.known.locations += 1;
        self.known.processes += 1;
        Ok(Location(number))
    }

    pub(crate) fn add_transition(
        self,
        pre: Location,
        action: Action,
        post: Location,
        guard: Option<&Items>,
        constraints: &[(Clock, TimeRange)],
    ) -> Result<(), PgError> {
        let named = Named {
            action: Some(action),
            location: self.known.unknown_location(&[pre, post]),
            fault: guard.map(Items::fault),
            ..self.naming_clock(constraints)
        };
        let guard = guard.map(Items::words);
        let limits = limits(constraints);
        archive::add_timed_transition(self.place, (pre.0, action.0, post.0), guard, &limits).map_err(|n| PgError::of(n, named))
    }

    fn naming_clock(&self, limits: &[(Clock, TimeRange)]) -> Named {
        Named { clock: self.known.unknown_clock(limits), ..Named::default() }
    }
}

/// A refusal by a call that names nothing.
fn plain(number: u32) -> PgError {
    PgError::of(number, Named::default())
}

/// Limits as the archive takes them: a clock and two ends each.
fn limits(limits: &[(Clock, TimeRange)]) -> Vec<u64> {
    let words = limits.iter().flat_map(|(clock, range)| {
        let [lower, upper] = range.words();
        [u64::from(clock.0), lower, upper]
    });
    words.collect()
}

/// Defines a graph, part by part, and builds it. A refused call leaves the graph as it was.
#[derive(Debug, Clone)]
pub struct ProgramGraphBuilder {
    table: GraphTable,
    known: Known,
}

impl Default for ProgramGraphBuilder {
    fn default() -> Self {
        Self::new()
    }
}

impl ProgramGraphBuilder {
    /// An empty graph.
    pub fn new() -> Self {
        ProgramGraphBuilder { table: GraphTable::new(), known: Known::default() }
    }

    #[cfg(test)]
    pub(crate) fn same_words(&self, other: &Self) -> bool {
        self.table == other.table
    }

    fn builder(&mut self) -> Builder<'_> {
        Builder { place: Place::Alone(&mut self.table), known: &mut self.known }
    }

    fn items(&self, expression: &PgExpression) -> Items {
        Items::of(expression, &|var| self.known.found(var))
    }

    /// The type of a variable.
    pub fn var_type(&self, var: Var) -> Result<Type, PgError> {
        let known = self.known.vars.get(var.0 as usize);
        known.copied().ok_or(PgError::MissingVar(var))
    }

    /// A variable with this value at the start.
    ///
    /// ```
    /// use njunnemar::program_graph::{PgExpression, ProgramGraphBuilder};
    /// # let mut pg_builder = ProgramGraphBuilder::new();
    /// // The value may come from a constant expression.
    /// let val = (PgExpression::from(40) + PgExpression::from(40)).unwrap().eval_constant().unwrap();
    /// let var = pg_builder.new_var(val)?;
    /// # Ok::<(), njunnemar::program_graph::PgError>(())
    /// ```
    pub fn new_var(&mut self, val: Val) -> Result<Var, PgError> {
        self.builder().new_var(val)
    }

    /// A clock.
    pub fn new_clock(&mut self) -> Result<Clock, PgError> {
        self.builder().new_clock()
    }

    /// A plain action.
    ///
    /// ```
    /// use njunnemar::program_graph::{Action, ProgramGraphBuilder};
    /// # let mut pg_builder = ProgramGraphBuilder::new();
    /// let action: Action = pg_builder.new_action()?;
    /// # Ok::<(), njunnemar::program_graph::PgError>(())
    /// ```
    pub fn new_action(&mut self) -> Result<Action, PgError> {
        self.builder().new_action()
    }

    /// The action puts the clock back to 0.
    ///
    /// ```
    /// use njunnemar::program_graph::{PgError, ProgramGraphBuilder};
    /// # let mut pg_builder = ProgramGraphBuilder::new();
    /// # let mut other_pg_builder = ProgramGraphBuilder::new();
    /// let action = pg_builder.new_action()?;
    /// let clock = other_pg_builder.new_clock()?;
    /// // The clock is one of another graph.
    /// assert_eq!(pg_builder.add_reset(action, clock), Err(PgError::MissingClock(clock)));
    /// # Ok::<(), PgError>(())
    /// ```
    pub fn add_reset(&mut self, action: Action, clock: Clock) -> Result<(), PgError> {
        self.builder().add_reset(action, clock)
    }

    /// The action sets the variable to what the expression then gives.
    ///
    /// ```
    /// use njunnemar::program_graph::{Action, PgError, PgExpression, ProgramGraphBuilder, Var};
    /// use njunnemar::Val;
    /// # let mut pg_builder = ProgramGraphBuilder::new();
    /// let action: Action = pg_builder.new_action()?;
    /// let var: Var = pg_builder.new_var(Val::from(true))?;
    ///
    /// // A boolean variable and an integer.
    /// let refused = pg_builder.add_effect(action, var, PgExpression::from(1));
    /// assert_eq!(refused, Err(PgError::TypeMismatch));
    /// // A boolean variable and a boolean.
    /// pg_builder.add_effect(action, var, PgExpression::from(false))?;
    /// # Ok::<(), PgError>(())
    /// ```
    pub fn add_effect(&mut self, action: Action, var: Var, effect: PgExpression) -> Result<(), PgError> {
        let items = self.items(&effect);
        self.builder().add_effect(action, var, &items)
    }

    /// An action that sends the values of these expressions.
    pub fn new_send(&mut self, msgs: Vec<PgExpression>) -> Result<Action, PgError> {
        let items: Vec<Items> = msgs.iter().map(|msg| self.items(msg)).collect();
        archive::new_send(&mut self.table, &words_of(&items)).map(Action).map_err(|n| PgError::of(n, naming_fault(&items)))
    }

    /// An action that receives values into these variables.
    pub fn new_receive(&mut self, vars: Vec<Var>) -> Result<Action, PgError> {
        let named = Named { var: self.known.unknown_var(&vars), ..Named::default() };
        archive::new_receive(&mut self.table, &numbers_of(&vars)).map(Action).map_err(|n| PgError::of(n, named))
    }

    /// A location.
    pub fn new_location(&mut self) -> Result<Location, PgError> {
        self.new_timed_location(vec![])
    }

    /// A location with invariants.
    pub fn new_timed_location(&mut self, invariants: Vec<(Clock, TimeRange)>) -> Result<Location, PgError> {
        self.builder().new_location(&invariants)
    }

    /// A process that starts at the location.
    pub fn new_process(&mut self, location: Location) -> Result<(), PgError> {
        self.builder().new_process(location)
    }

    /// A location, and a process that starts there.
    pub fn new_initial_location(&mut self) -> Result<Location, PgError> {
        self.new_initial_timed_location(vec![])
    }

    /// A location with invariants, and a process that starts there. Refused, it adds neither.
    pub fn new_initial_timed_location(&mut self, invariants: Vec<(Clock, TimeRange)>) -> Result<Location, PgError> {
        self.builder().new_initial(&invariants)
    }

    /// A transition from `pre` by `action` to `post`, if the guard holds.
    ///
    /// ```
    /// use njunnemar::program_graph::ProgramGraphBuilder;
    /// use njunnemar::BooleanExpr;
    /// # let mut pg_builder = ProgramGraphBuilder::new();
    /// let initial_loc = pg_builder.new_initial_location()?;
    /// let action = pg_builder.new_action()?;
    /// pg_builder.add_transition(initial_loc, action, initial_loc, None)?;
    /// pg_builder.add_transition(initial_loc, action, initial_loc, Some(BooleanExpr::from(false)))?;
    /// # Ok::<(), njunnemar::program_graph::PgError>(())
    /// ```
    pub fn add_transition(&mut self, pre: Location, action: Action, post: Location, guard: Option<PgGuard>) -> Result<(), PgError> {
        self.add_timed_transition(pre, action, post, guard, vec![])
    }

    /// A transition that also asks for limits on clocks.
    ///
    /// ```
    /// use njunnemar::program_graph::ProgramGraphBuilder;
    /// use njunnemar::{BooleanExpr, TimeRange};
    /// # let mut pg_builder = ProgramGraphBuilder::new();
    /// let initial_loc = pg_builder.new_initial_location()?;
    /// let action = pg_builder.new_action()?;
    /// let clock = pg_builder.new_clock()?;
    /// let (early, late) = (TimeRange::new(..=1), TimeRange::new(1..));
    /// pg_builder.add_timed_transition(initial_loc, action, initial_loc, None, vec![(clock, early)])?;
    /// let never = Some(BooleanExpr::from(false));
    /// pg_builder.add_timed_transition(initial_loc, action, initial_loc, never, vec![(clock, late)])?;
    /// # Ok::<(), njunnemar::program_graph::PgError>(())
    /// ```
    pub fn add_timed_transition(
        &mut self,
        pre: Location,
        action: Action,
        post: Location,
        guard: Option<PgGuard>,
        constraints: Vec<(Clock, TimeRange)>,
    ) -> Result<(), PgError> {
        let guard = guard.map(|guard| Items::of_guard(&guard, &|var| self.known.found(var)));
        self.builder().add_transition(pre, action, post, guard.as_ref(), &constraints)
    }

    /// A transition by [`Action::EPSILON`].
    ///
    /// ```
    /// use njunnemar::program_graph::ProgramGraphBuilder;
    /// use njunnemar::BooleanExpr;
    /// # let mut pg_builder = ProgramGraphBuilder::new();
    /// let initial_loc = pg_builder.new_initial_location()?;
    /// pg_builder.add_autonomous_transition(initial_loc, initial_loc, None)?;
    /// pg_builder.add_autonomous_transition(initial_loc, initial_loc, Some(BooleanExpr::from(false)))?;
    /// # Ok::<(), njunnemar::program_graph::PgError>(())
    /// ```
    pub fn add_autonomous_transition(&mut self, pre: Location, post: Location, guard: Option<PgGuard>) -> Result<(), PgError> {
        self.add_transition(pre, Action::EPSILON, post, guard)
    }

    /// A transition by [`Action::EPSILON`] that also asks for limits on clocks.
    ///
    /// ```
    /// use njunnemar::program_graph::ProgramGraphBuilder;
    /// use njunnemar::{BooleanExpr, TimeRange};
    /// # let mut pg_builder = ProgramGraphBuilder::new();
    /// let initial_loc = pg_builder.new_initial_location()?;
    /// let clock = pg_builder.new_clock()?;
    /// let (early, late) = (TimeRange::new(..=1), TimeRange::new(1..));
    /// pg_builder.add_autonomous_timed_transition(initial_loc, initial_loc, None, vec![(clock, early)])?;
    /// let never = Some(BooleanExpr::from(false));
    /// pg_builder.add_autonomous_timed_transition(initial_loc, initial_loc, never, vec![(clock, late)])?;
    /// # Ok::<(), njunnemar::program_graph::PgError>(())
    /// ```
    pub fn add_autonomous_timed_transition(
        &mut self,
        pre: Location,
        post: Location,
        guard: Option<PgGuard>,
        constraints: Vec<(Clock, TimeRange)>,
    ) -> Result<(), PgError> {
        self.add_timed_transition(pre, Action::EPSILON, post, guard, constraints)
    }

    /// The graph. Refused if it has no process.
    pub fn build(self) -> Result<ProgramGraph, PgError> {
        archive::build_graph(&self.table).map_err(plain)?;
        Ok(ProgramGraph { table: self.table, known: self.known })
    }
}

/// The words of each expression of a message.
pub(crate) fn words_of(items: &[Items]) -> Vec<&[u64]> {
    items.iter().map(Items::words).collect()
}

/// What stood against the first expression of a message that was written down with a fault.
pub(crate) fn naming_fault(items: &[Items]) -> Named {
    Named { fault: items.iter().find_map(Items::found_fault), ..Named::default() }
}

pub(crate) fn numbers_of(vars: &[Var]) -> Vec<u32> {
    vars.iter().map(|var| var.0).collect()
}
