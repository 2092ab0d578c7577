//! Test code for the builder of channel systems, by the port's own rules (docs/RULES.md).
//!
//! It keeps the tables that the text's lookup of communications reads. What the rules say of sizes is no business of this module:
//! here a system grows.

use super::super::{
    Action, Channel, ChannelCapacity, ChannelSystem, CsError, Message, PgAction, PgId, PgVar,
};
use crate::program_graph::{PgError, ProgramGraphBuilder};
use crate::{Expression, Type};

type Communication = Option<(Channel, Message)>;

#[derive(Clone, Default)]
pub struct ChannelSystemBuilder {
    channels: Vec<(Vec<Type>, ChannelCapacity)>,
    program_graphs: Vec<ProgramGraphBuilder>,
    /// Of each graph, an entry for each of its actions.
    communications: Vec<Vec<Communication>>,
}

impl ChannelSystemBuilder {
    pub fn new_program_graph(&mut self) -> PgId {
        let number = self.program_graphs.len() as u16;
        self.program_graphs.push(ProgramGraphBuilder::new());
        self.communications.push(vec![]);
        PgId(number)
    }

    pub fn new_channel(&mut self, types: Vec<Type>, capacity: ChannelCapacity) -> Channel {
        let number = self.channels.len() as u16;
        self.channels.push((types, capacity));
        Channel(number)
    }

    /// The builder of a graph, for the calls that concern it alone. A plain action is no communication.
    pub fn on_graph<T>(
        &mut self,
        pg_id: PgId,
        call: impl FnOnce(&mut ProgramGraphBuilder) -> T,
    ) -> Result<T, CsError> {
        let graph = self
            .program_graphs
            .get_mut(pg_id.0 as usize)
            .ok_or(CsError::MissingPg(pg_id))?;
        Ok(call(graph))
    }

    pub fn new_action(&mut self, pg_id: PgId) -> Result<Action, CsError> {
        let action = self.on_graph(pg_id, ProgramGraphBuilder::new_action)?;
        Ok(self.entered(pg_id, action, None))
    }

    pub fn new_send(
        &mut self,
        pg_id: PgId,
        channel: Channel,
        messages: Vec<Expression<PgVar>>,
    ) -> Result<Action, CsError> {
        let types = self.types(pg_id, channel)?;
        self.communicating(pg_id, channel, Message::Send, |graph| {
            let action = graph.open_new_send(messages.clone())?;
            let sent = messages.iter().map(Expression::r#type);
            sent.eq(types)
                .then_some(action)
                .ok_or(PgError::TypeMismatch)
        })
    }

    pub fn new_receive(
        &mut self,
        pg_id: PgId,
        channel: Channel,
        vars: Vec<PgVar>,
    ) -> Result<Action, CsError> {
        let types = self.types(pg_id, channel)?;
        self.communicating(pg_id, channel, Message::Receive, |graph| {
            let action = graph.open_new_receive(vars.clone())?;
            let received: Result<Vec<Type>, PgError> =
                vars.iter().map(|var| graph.open_var_type(*var)).collect();
            (received? == types)
                .then_some(action)
                .ok_or(PgError::TypeMismatch)
        })
    }

    /// A probe is, in the graph, a send of no values.
    pub fn new_probe(
        &mut self,
        pg_id: PgId,
        channel: Channel,
        message: Message,
    ) -> Result<Action, CsError> {
        self.types(pg_id, channel)?;
        self.communicating(pg_id, channel, message, |graph| graph.open_new_send(vec![]))
    }

    pub fn build(&self) -> ChannelSystem {
        let mut starts = vec![];
        let mut all = vec![];
        for entries in &self.communications {
            starts.push(all.len());
            all.extend(entries.iter().copied());
        }
        let graphs = self.program_graphs.iter().cloned();
        ChannelSystem {
            channels: self.channels.clone(),
            communications: all,
            communications_pg_idxs: starts,
            program_graphs: graphs.map(ProgramGraphBuilder::build).collect(),
        }
    }

    /// First the graph, then the channel.
    fn types(&self, pg_id: PgId, channel: Channel) -> Result<Vec<Type>, CsError> {
        if pg_id.0 as usize >= self.program_graphs.len() {
            return Err(CsError::MissingPg(pg_id));
        }
        match self.channels.get(channel.0 as usize) {
            Some((types, _)) => Ok(types.clone()),
            None => Err(CsError::MissingChannel(channel)),
        }
    }

    /// A refused action leaves nothing: the graph is changed on a copy.
    fn communicating(
        &mut self,
        pg_id: PgId,
        channel: Channel,
        message: Message,
        add: impl FnOnce(&mut ProgramGraphBuilder) -> Result<PgAction, PgError>,
    ) -> Result<Action, CsError> {
        let mut graph = self.program_graphs[pg_id.0 as usize].clone();
        let action = add(&mut graph).map_err(|error| CsError::ProgramGraph(pg_id, error))?;
        self.program_graphs[pg_id.0 as usize] = graph;
        Ok(self.entered(pg_id, action, Some((channel, message))))
    }

    fn entered(&mut self, pg_id: PgId, action: PgAction, entry: Communication) -> Action {
        self.communications[pg_id.0 as usize].push(entry);
        Action(pg_id, action)
    }
}
