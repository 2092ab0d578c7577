//! Running a graph.

use super::{Action, Clock, Location, Named, PgError, ProgramGraph, Var};
use crate::{
    Rng, Time, Val,
    archive::{self, RunWords},
    listing::{ByAction, Posts, posts},
};

/// A run of a graph: where its processes are, what its variables hold, what its clocks read.
///
/// It borrows the graph, so a clone copies the run alone. A refused call leaves it as it was.
#[derive(Debug, Clone)]
pub struct ProgramGraphRun<'def> {
    def: &'def ProgramGraph,
    words: RunWords,
}

impl<'def> ProgramGraphRun<'def> {
    /// A run at the graph's start.
    pub fn new(program_graph: &'def ProgramGraph) -> Self {
        ProgramGraphRun { def: program_graph, words: archive::new_run(&program_graph.table) }
    }

    /// A run of these words, which the archive wrote.
    pub(crate) fn of_words(def: &'def ProgramGraph, words: RunWords) -> Self {
        ProgramGraphRun { def, words }
    }

    /// The location of each process.
    ///
    /// ```
    /// use njunnemar::program_graph::{PgError, ProgramGraphBuilder};
    ///
    /// let mut pg_builder = ProgramGraphBuilder::new();
    /// let initial_loc = pg_builder.new_initial_location()?;
    /// let pg = pg_builder.build()?;
    /// let instance = pg.new_instance();
    /// assert_eq!(instance.current_states().as_slice(), &[initial_loc]);
    /// # Ok::<(), PgError>(())
    /// ```
    pub fn current_states(&self) -> Vec<Location> {
        let places = archive::places(&self.def.table, &self.words);
        places.into_iter().map(Location).collect()
    }

    /// What a variable holds.
    pub fn value(&self, var: Var) -> Result<Val, PgError> {
        let named = Named { var: Some(var), ..Named::default() };
        archive::value(&self.def.table, &self.words, var.0).map_err(|n| PgError::of(n, named))
    }

    /// What a clock reads.
    pub fn clock(&self, clock: Clock) -> Result<Time, PgError> {
        let named = Named { clock: Some(clock), ..Named::default() };
        archive::clock(&self.def.table, &self.words, clock.0).map_err(|n| PgError::of(n, named))
    }

    /// What may be done next: actions in their order, with the post-locations of each process. Guards, limits and invariants
    /// hold. An action by which no process may go anywhere is left out.
    pub fn possible_transitions(&self) -> impl Iterator<Item = (Action, Posts<Location>)> {
        let entry = |k| archive::possible(&self.def.table, &self.words, k);
        ByAction::new(self.def.known.processes, entry).map(|(action, of_processes)| (Action(action), posts(of_processes, Location)))
    }

    /// The same, of a graph that has one process; refused if it has several.
    pub fn nosync_possible_transitions(&self) -> Result<impl Iterator<Item = (Action, impl Iterator<Item = Location>)>, PgError> {
        // Entry 0 is asked for the refusal alone.
        archive::nosync_possible(&self.def.table, &self.words, 0).map_err(plain)?;
        let entry = |k| archive::nosync_possible(&self.def.table, &self.words, k).ok()?;
        Ok(ByAction::new(1, entry).map(|(action, of_processes)| (Action(action), posts(of_processes, Location).flatten())))
    }

    /// A step by a plain action or [`Action::EPSILON`], to one post-location for each process. The word for draws is the
    /// generator's next.
    pub fn transition<R: Rng>(&mut self, action: Action, post_states: &[Location], rng: &mut R) -> Result<(), PgError> {
        let named = self.naming(action, post_states);
        let (posts, word) = (numbers_of(post_states), rng.next_word());
        archive::transition(&self.def.table, &mut self.words, action.0, &posts, word).map_err(|n| PgError::of(n, named))
    }

    /// A step by a send: its values.
    pub fn send<R: Rng>(&mut self, action: Action, post_states: &[Location], rng: &mut R) -> Result<Vec<Val>, PgError> {
        let named = self.naming(action, post_states);
        let (posts, word) = (numbers_of(post_states), rng.next_word());
        archive::send(&self.def.table, &mut self.words, action.0, &posts, word).map_err(|n| PgError::of(n, named))
    }

    /// A step by a receive of these values.
    pub fn receive(&mut self, action: Action, post_states: &[Location], vals: &[Val]) -> Result<(), PgError> {
        let named = self.naming(action, post_states);
        let posts = numbers_of(post_states);
        archive::receive(&self.def.table, &mut self.words, action.0, &posts, vals).map_err(|n| PgError::of(n, named))
    }

    /// Whether a wait would be accepted.
    pub fn can_wait(&self, delta: Time) -> bool {
        archive::can_wait(&self.def.table, &self.words, delta)
    }

    /// Waits: every clock reads more. Refused if an invariant of some process's location does not hold at the end.
    pub fn wait(&mut self, delta: Time) -> Result<(), PgError> {
        archive::wait(&self.def.table, &mut self.words, delta).map_err(plain)
    }

    /// Whether waiting will open some transition.
    pub fn is_waiting(&self) -> bool {
        archive::is_waiting(&self.def.table, &self.words)
    }

    #[cfg(test)]
    pub(crate) fn same_words(&self, other: &Self) -> bool {
        self.words == other.words
    }

    fn naming(&self, action: Action, post_states: &[Location]) -> Named {
        Named { action: Some(action), location: self.def.known.unknown_location(post_states), ..Named::default() }
    }
}

fn plain(number: u32) -> PgError {
    PgError::of(number, Named::default())
}

fn numbers_of(locations: &[Location]) -> Vec<u32> {
    locations.iter().map(|location| location.0).collect()
}
