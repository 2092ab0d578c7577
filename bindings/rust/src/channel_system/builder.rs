//! Building a system.

use super::{
    Action, Channel, ChannelCapacity, ChannelData, ChannelSystem, Clock, Communications, CsError, CsExpression, CsGuard, Location, Message,
    PgId, Var,
};
use crate::{
    TimeRange, Type, Val,
    archive::{self, Place, SystemTable},
    grammar::Items,
    program_graph::{
        Action as PgAction, Builder, Clock as PgClock, Known, Location as PgLocation, Named, PgError, ProgramGraph, Var as PgVar,
        naming_fault, numbers_of, words_of,
    },
};

/// Defines a system, part by part, and builds it. A refused call leaves the system as it was.
#[derive(Debug, Clone)]
pub struct ChannelSystemBuilder {
    table: SystemTable,
    graphs: Vec<Known>,
    channels: Vec<ChannelData>,
    communications: Vec<Communications>,
}

impl Default for ChannelSystemBuilder {
    fn default() -> Self {
        Self::new()
    }
}

type Limits = Vec<(Clock, TimeRange)>;

impl ChannelSystemBuilder {
    /// An empty system.
    pub fn new() -> Self {
        ChannelSystemBuilder { table: SystemTable::new(), graphs: vec![], channels: vec![], communications: vec![] }
    }

    /// A graph, empty.
    pub fn new_program_graph(&mut self) -> Result<PgId, CsError> {
        let number = archive::new_program_graph(&mut self.table).map_err(CsError::of_system)?;
        self.graphs.push(Known::default());
        self.communications.push(vec![]);
        Ok(PgId(number))
    }

    /// A channel whose messages have values of these types. `Some(n)` is a queue with room for n values, `None` one without a bound;
    /// [`ChannelCapacity::Sink`] stores nothing.
    pub fn new_channel(&mut self, types: Vec<Type>, capacity: impl Into<ChannelCapacity>) -> Result<Channel, CsError> {
        let capacity = capacity.into();
        let number = archive::new_channel(&mut self.table, &types, capacity).map_err(CsError::of_system)?;
        self.channels.push((types, capacity));
        Ok(Channel(number))
    }

    #[cfg(test)]
    pub(crate) fn same_words(&self, other: &Self) -> bool {
        self.table == other.table
    }

    /// A building call on a graph.
    fn on_graph<T>(&mut self, pg_id: PgId, call: impl FnOnce(Builder<'_>) -> Result<T, PgError>) -> Result<T, CsError> {
        let known = self.graphs.get_mut(pg_id.0 as usize);
        let builder = Builder { known: known.ok_or(CsError::MissingPg(pg_id))?, place: Place::Inside(&mut self.table, pg_id.0) };
        call(builder).map_err(|refusal| CsError::ProgramGraph(pg_id, refusal))
    }

    /// First the graph has to be there, then what is named has to be its own.
    fn known(&self, pg_id: PgId) -> Result<&Known, CsError> {
        let known = self.graphs.get(pg_id.0 as usize);
        known.ok_or(CsError::MissingPg(pg_id))
    }

    fn action(&self, pg_id: PgId, action: Action) -> Result<PgAction, CsError> {
        self.known(pg_id)?;
        let own = (action.0 == pg_id).then_some(action.1);
        own.ok_or(CsError::ActionNotInPg(action, pg_id))
    }

    fn location(&self, pg_id: PgId, location: Location) -> Result<PgLocation, CsError> {
        self.known(pg_id)?;
        let own = (location.0 == pg_id).then_some(location.1);
        own.ok_or(CsError::LocationNotInPg(location, pg_id))
    }

    fn var(&self, pg_id: PgId, var: Var) -> Result<PgVar, CsError> {
        self.known(pg_id)?;
        let own = (var.0 == pg_id).then_some(var.1);
        own.ok_or(CsError::VarNotInPg(var, pg_id))
    }

    fn clock(&self, pg_id: PgId, clock: Clock) -> Result<PgClock, CsError> {
        self.known(pg_id)?;
        let own = (clock.0 == pg_id).then_some(clock.1);
        own.ok_or(CsError::ClockNotInPg(clock, pg_id))
    }

    fn limits(&self, pg_id: PgId, limits: &[(Clock, TimeRange)]) -> Result<Vec<(PgClock, TimeRange)>, CsError> {
        let own = |(clock, range): &(Clock, TimeRange)| Ok((self.clock(pg_id, *clock)?, *range));
        limits.iter().map(own).collect()
    }

    /// The items of an expression over the graph's variables; one of another graph is unknown.
    fn items(&self, pg_id: PgId, expression: &CsExpression) -> Result<Items, CsError> {
        let known = self.known(pg_id)?;
        Ok(Items::of(expression, &|var: Var| (var.0 == pg_id).then(|| known.found(var.1))?))
    }

    fn guard(&self, pg_id: PgId, guard: Option<CsGuard>) -> Result<Option<Items>, CsError> {
        let known = self.known(pg_id)?;
        Ok(guard.map(|guard| Items::of_guard(&guard, &|var: Var| (var.0 == pg_id).then(|| known.found(var.1))?)))
    }

    /// A communication was added to the graph.
    fn entered(&mut self, pg_id: PgId, number: u32, entry: Option<(Channel, Message)>) -> Action {
        self.communications[pg_id.0 as usize].push(entry);
        Action(pg_id, PgAction(number))
    }

    /// The refusal of a call that adds a communication.
    fn refused(pg_id: PgId, channel: Channel, number: u32, named: Named) -> CsError {
        CsError::of_channel(number, channel).unwrap_or_else(|| CsError::ProgramGraph(pg_id, PgError::of(number, named)))
    }

    /// A variable with this value at the start.
    pub fn new_var(&mut self, pg_id: PgId, val: Val) -> Result<Var, CsError> {
        let var = self.on_graph(pg_id, |graph| graph.new_var(val))?;
        Ok(Var(pg_id, var))
    }

    /// The type of a variable.
    pub fn var_type(&self, var: Var) -> Result<Type, CsError> {
        let known = self.known(var.0)?.vars.get(var.1.0 as usize);
        let missing = CsError::ProgramGraph(var.0, PgError::MissingVar(var.1));
        known.copied().ok_or(missing)
    }

    /// A clock.
    pub fn new_clock(&mut self, pg_id: PgId) -> Result<Clock, CsError> {
        let clock = self.on_graph(pg_id, |graph| graph.new_clock())?;
        Ok(Clock(pg_id, clock))
    }

    /// A plain action.
    pub fn new_action(&mut self, pg_id: PgId) -> Result<Action, CsError> {
        let action = self.on_graph(pg_id, |graph| graph.new_action())?;
        Ok(self.entered(pg_id, action.0, None))
    }

    /// The action puts the clock back to 0.
    pub fn add_reset(&mut self, pg_id: PgId, action: Action, clock: Clock) -> Result<(), CsError> {
        let (action, clock) = (self.action(pg_id, action)?, self.clock(pg_id, clock)?);
        self.on_graph(pg_id, |graph| graph.add_reset(action, clock))
    }

    /// The action sets the variable to what the expression then gives.
    pub fn add_effect(&mut self, pg_id: PgId, action: Action, var: Var, effect: CsExpression) -> Result<(), CsError> {
        let (action, var) = (self.action(pg_id, action)?, self.var(pg_id, var)?);
        let items = self.items(pg_id, &effect)?;
        self.on_graph(pg_id, |graph| graph.add_effect(action, var, &items))
    }

    /// An action that sends the values of these expressions.
    pub fn new_send(&mut self, pg_id: PgId, channel: Channel, msgs: Vec<CsExpression>) -> Result<Action, CsError> {
        let items = msgs.iter().map(|msg| self.items(pg_id, msg));
        let items = items.collect::<Result<Vec<Items>, CsError>>()?;
        self.known(pg_id)?;
        let number = archive::new_send_on(&mut self.table, pg_id.0, channel.0, &words_of(&items))
            .map_err(|n| Self::refused(pg_id, channel, n, naming_fault(&items)))?;
        Ok(self.entered(pg_id, number, Some((channel, Message::Send))))
    }

    /// An action that receives a message into these variables.
    pub fn new_receive(&mut self, pg_id: PgId, channel: Channel, vars: Vec<Var>) -> Result<Action, CsError> {
        let vars = vars.into_iter().map(|var| self.var(pg_id, var));
        let vars = vars.collect::<Result<Vec<PgVar>, CsError>>()?;
        let named = Named { var: self.known(pg_id)?.unknown_var(&vars), ..Named::default() };
        let vars = numbers_of(&vars);
        let number =
            archive::new_receive_on(&mut self.table, pg_id.0, channel.0, &vars).map_err(|n| Self::refused(pg_id, channel, n, named))?;
        Ok(self.entered(pg_id, number, Some((channel, Message::Receive))))
    }

    /// An action that passes if the channel's queue is empty.
    pub fn new_probe_empty_queue(&mut self, pg_id: PgId, channel: Channel) -> Result<Action, CsError> {
        self.known(pg_id)?;
        let number = archive::new_probe_empty_queue(&mut self.table, pg_id.0, channel.0)
            .map_err(|n| Self::refused(pg_id, channel, n, Named::default()))?;
        Ok(self.entered(pg_id, number, Some((channel, Message::ProbeEmptyQueue))))
    }

    /// An action that passes if the channel's queue is full.
    pub fn new_probe_full_queue(&mut self, pg_id: PgId, channel: Channel) -> Result<Action, CsError> {
        self.known(pg_id)?;
        let number = archive::new_probe_full_queue(&mut self.table, pg_id.0, channel.0)
            .map_err(|n| Self::refused(pg_id, channel, n, Named::default()))?;
        Ok(self.entered(pg_id, number, Some((channel, Message::ProbeFullQueue))))
    }

    /// A location.
    pub fn new_location(&mut self, pg_id: PgId) -> Result<Location, CsError> {
        self.new_timed_location(pg_id, vec![])
    }

    /// A location with invariants.
    pub fn new_timed_location(&mut self, pg_id: PgId, invariants: Limits) -> Result<Location, CsError> {
        let invariants = self.limits(pg_id, &invariants)?;
        let location = self.on_graph(pg_id, |graph| graph.new_location(&invariants))?;
        Ok(Location(pg_id, location))
    }

    /// A process that starts at the location.
    pub fn new_process(&mut self, pg_id: PgId, location: Location) -> Result<(), CsError> {
        let location = self.location(pg_id, location)?;
        self.on_graph(pg_id, |graph| graph.new_process(location))
    }

    /// A location, and a process that starts there.
    pub fn new_initial_location(&mut self, pg_id: PgId) -> Result<Location, CsError> {
        self.new_initial_timed_location(pg_id, vec![])
    }

    /// A location with invariants, and a process that starts there. Refused, it adds neither.
    pub fn new_initial_timed_location(&mut self, pg_id: PgId, invariants: Limits) -> Result<Location, CsError> {
        let invariants = self.limits(pg_id, &invariants)?;
        let location = self.on_graph(pg_id, |graph| graph.new_initial(&invariants))?;
        Ok(Location(pg_id, location))
    }

    /// A transition from `pre` by `action` to `post`, if the guard holds.
    pub fn add_transition(
        &mut self,
        pg_id: PgId,
        pre: Location,
        action: Action,
        post: Location,
        guard: Option<CsGuard>,
    ) -> Result<(), CsError> {
        self.add_timed_transition(pg_id, pre, action, post, guard, vec![])
    }

    /// A transition that also asks for limits on clocks.
    pub fn add_timed_transition(
        &mut self,
        pg_id: PgId,
        pre: Location,
        action: Action,
        post: Location,
        guard: Option<CsGuard>,
        constraints: Limits,
    ) -> Result<(), CsError> {
        let action = self.action(pg_id, action)?;
        let (pre, post) = (self.location(pg_id, pre)?, self.location(pg_id, post)?);
        let (guard, limits) = (self.guard(pg_id, guard)?, self.limits(pg_id, &constraints)?);
        self.on_graph(pg_id, |graph| graph.add_transition(pre, action, post, guard.as_ref(), &limits))
    }

    /// A transition by the graph's [`Action::epsilon`].
    pub fn add_autonomous_transition(&mut self, pg_id: PgId, pre: Location, post: Location, guard: Option<CsGuard>) -> Result<(), CsError> {
        self.add_transition(pg_id, pre, Action::epsilon(pg_id), post, guard)
    }

    /// A transition by the graph's [`Action::epsilon`] that also asks for limits on clocks.
    pub fn add_autonomous_timed_transition(
        &mut self,
        pg_id: PgId,
        pre: Location,
        post: Location,
        guard: Option<CsGuard>,
        constraints: Limits,
    ) -> Result<(), CsError> {
        let epsilon = Action::epsilon(pg_id);
        self.add_timed_transition(pg_id, pre, epsilon, post, guard, constraints)
    }

    /// The system. Refused if some graph has no process.
    pub fn build(self) -> Result<ChannelSystem, CsError> {
        archive::build_system(&self.table).map_err(CsError::of_system)?;
        let graphs = self.graphs.into_iter().enumerate().map(|(pg, known)| {
            let table = self.table.graph(pg).map_err(CsError::of_system)?;
            Ok(ProgramGraph { table, known })
        });
        let program_graphs = graphs.collect::<Result<Vec<ProgramGraph>, CsError>>()?;
        Ok(ChannelSystem { table: self.table, channels: self.channels, communications: self.communications, program_graphs })
    }
}
