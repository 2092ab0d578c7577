//! Running a system.

use super::{Action, Channel, ChannelSystem, CsError, Event, Location, PgId};
use crate::{
    Rng, SplitMix, Time, Val,
    archive::{self, StateWords, SystemTable},
    listing::{ByAction, Posts, posts},
    program_graph::{Action as PgAction, Location as PgLocation, Named, PgError, ProgramGraphRun},
};

/// A run of a system: the time, a run of each graph, and a queue for each channel.
///
/// It borrows the system, so a clone copies the state alone. A refused call leaves it as it was, word for word.
#[derive(Debug, Clone)]
pub struct ChannelSystemRun<'def> {
    def: &'def ChannelSystem,
    state: StateWords,
    rng: SplitMix,
}

impl PartialEq for ChannelSystemRun<'_> {
    /// Whether both are the same state of one system, and draw the same.
    fn eq(&self, other: &Self) -> bool {
        std::ptr::eq(self.def, other.def) && self.state == other.state && self.rng == other.rng
    }
}

impl<'def> ChannelSystemRun<'def> {
    /// A run at the system's start; its draws are from seed 0.
    pub fn new(cs: &'def ChannelSystem) -> Self {
        Self::seeded(cs, 0)
    }

    /// A run at the system's start; its draws are from this seed.
    pub fn seeded(cs: &'def ChannelSystem, seed: u64) -> Self {
        ChannelSystemRun { def: cs, state: archive::new_state(&cs.table), rng: SplitMix::new(seed) }
    }

    /// The system.
    pub fn def(&self) -> &'def ChannelSystem {
        self.def
    }

    /// The time.
    pub fn time(&self) -> Time {
        archive::time(&self.def.table, &self.state)
    }

    /// The run of a graph, as it is now.
    pub fn program_graph(&self, pg_id: PgId) -> Result<ProgramGraphRun<'def>, CsError> {
        let graph = self.def.program_graphs.get(pg_id.0 as usize);
        let graph = graph.ok_or(CsError::MissingPg(pg_id))?;
        let words = archive::run_of(&self.state, pg_id.0).map_err(|n| self.refused(n, pg_id))?;
        Ok(ProgramGraphRun::of_words(graph, words))
    }

    /// The values in a channel's queue, the oldest first.
    pub fn queue(&self, channel: Channel) -> Result<Vec<Val>, CsError> {
        archive::queue(&self.def.table, &self.state, channel.0)
            .map_err(|n| CsError::of_channel(n, channel).unwrap_or_else(|| CsError::of_system(n)))
    }

    /// What may be done next: graph by graph, actions in their order, with the post-locations of each process. A communication
    /// is listed if its channel is ready; docs/RULES.md says where a step may refuse it all the same.
    pub fn possible_transitions(&self) -> impl Iterator<Item = (PgId, Action, Posts<Location>)> {
        self.def.program_graph_ids().flat_map(|pg_id| {
            let of_graph = self.possible_transitions_pg(pg_id).into_iter().flatten();
            of_graph.map(move |(action, posts)| (pg_id, action, posts))
        })
    }

    /// What a graph may do next.
    pub fn possible_transitions_pg(&self, pg_id: PgId) -> Result<impl Iterator<Item = (Action, Posts<Location>)>, CsError> {
        let graph = self.def.program_graphs.get(pg_id.0 as usize);
        let processes = graph.ok_or(CsError::MissingPg(pg_id))?.known.processes;
        let entry = move |k| archive::possible_on(&self.def.table, &self.state, pg_id.0, k).ok()?;
        Ok(ByAction::new(processes, entry).map(move |(action, of_processes)| {
            (Action(pg_id, PgAction(action)), posts(of_processes, |post| Location(pg_id, PgLocation(post))))
        }))
    }

    /// The same, of a graph that has one process; refused if it has several.
    pub fn nosync_possible_transitions_pg(
        &self,
        pg_id: PgId,
    ) -> Result<impl Iterator<Item = (Action, impl Iterator<Item = Location>)>, CsError> {
        let read = move |k| archive::nosync_possible_on(&self.def.table, &self.state, pg_id.0, k);
        // Entry 0 is asked for the refusal alone.
        read(0).map_err(|n| self.refused(n, pg_id))?;
        let entry = move |k| read(k).ok()?;
        Ok(ByAction::new(1, entry).map(move |(action, of_processes)| {
            (Action(pg_id, PgAction(action)), posts(of_processes, |post| Location(pg_id, PgLocation(post))).flatten())
        }))
    }

    /// A step of a graph by an action, to one post-location for each process. A communication tells its event. The word for draws is
    /// the next of the run's own; a refused step leaves it.
    pub fn transition(&mut self, pg_id: PgId, action: Action, post: &[Location]) -> Result<Option<Event>, CsError> {
        let mut rng = self.rng.clone();
        let event = self.transition_with(pg_id, action, post, rng.next_word())?;
        self.rng = rng;
        Ok(event)
    }

    /// The same step, with this word for draws.
    pub fn transition_with(&mut self, pg_id: PgId, action: Action, post: &[Location], word: u64) -> Result<Option<Event>, CsError> {
        let posts: Vec<(u32, u32)> = post.iter().map(|post| (post.0.0, post.1.0)).collect();
        let by = (action.0.0, action.1.0);
        archive::step(&self.def.table, &mut self.state, pg_id.0, by, &posts, word).map_err(|n| self.step_refused(n, pg_id, action, post))
    }

    /// Waits: the time, and every clock of every graph. Refused if an invariant of some graph does not hold at the end.
    pub fn wait(&mut self, delta: Time) -> Result<(), CsError> {
        archive::wait_all(&self.def.table, &mut self.state, delta).map_err(|refusal| match refusal {
            (9, graph) => CsError::ProgramGraph(PgId(graph), PgError::Invariant),
            (number, _) => CsError::of_system(number),
        })
    }

    /// Whether a wait would be accepted.
    pub fn can_wait(&self, delta: Time) -> bool {
        archive::can_wait_all(&self.def.table, &self.state, delta)
    }

    /// Whether waiting will open some transition.
    pub fn is_waiting(&self) -> bool {
        archive::is_any_waiting(&self.def.table, &self.state)
    }

    /// The word that the next step would take.
    pub(crate) fn next_word(&self) -> u64 {
        self.rng.clone().next_word()
    }

    pub(crate) fn words(&self) -> (&SystemTable, &StateWords) {
        (&self.def.table, &self.state)
    }

    pub(crate) fn words_mut(&mut self) -> (&SystemTable, &mut StateWords) {
        (&self.def.table, &mut self.state)
    }

    /// The refusal of a call that names a graph.
    fn refused(&self, number: u32, pg_id: PgId) -> CsError {
        match number {
            17 => CsError::MissingPg(pg_id),
            32 => CsError::BadState,
            _ => CsError::ProgramGraph(pg_id, PgError::of(number, Named::default())),
        }
    }

    pub(crate) fn step_refused(&self, number: u32, pg_id: PgId, action: Action, post: &[Location]) -> CsError {
        let foreign = post.iter().copied().find(|post| post.0 != pg_id);
        match (number, foreign, self.def.communication(action)) {
            (17 | 32, ..) => self.refused(number, pg_id),
            (18, ..) => CsError::ActionNotInPg(action, pg_id),
            (19, Some(post), _) => CsError::LocationNotInPg(post, pg_id),
            (20..=25 | 27, _, Some((channel, _))) => CsError::of_channel(number, channel).unwrap_or(CsError::Unnamed(number)),
            _ => {
                let posts: Vec<PgLocation> = post.iter().map(|post| post.1).collect();
                let graph = self.def.program_graphs.get(pg_id.0 as usize);
                let named = Named {
                    action: Some(action.1),
                    location: graph.and_then(|graph| graph.known.unknown_location(&posts)),
                    ..Named::default()
                };
                CsError::ProgramGraph(pg_id, PgError::of(number, named))
            }
        }
    }
}
