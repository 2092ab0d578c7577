//! A door into the text of channel systems: numbers become ids, and a run is made of its parts and taken apart.
//!
//! A child of the module `run`, so it may use what is private there and in `channel_system`. It changes nothing.

use super::super::{Action, Channel, ChannelSystem, Location, PgId};
use super::ChannelSystemRun;
use crate::program_graph::{Action as PgAction, Location as PgLocation, ProgramGraphRun};
use crate::{Time, Val};
use bumpalo::Bump;
use rand::rngs::SmallRng;
use std::collections::VecDeque;

impl PgId {
    pub fn numbered(number: u16) -> Self {
        PgId(number)
    }

    pub fn number(self) -> u16 {
        self.0
    }
}

impl Channel {
    pub fn numbered(number: u16) -> Self {
        Channel(number)
    }

    pub fn number(self) -> u16 {
        self.0
    }
}

impl Action {
    pub fn of(pg_id: PgId, action: PgAction) -> Self {
        Action(pg_id, action)
    }

    pub fn in_graph(self) -> PgAction {
        self.1
    }
}

impl Location {
    pub fn of(pg_id: PgId, location: PgLocation) -> Self {
        Location(pg_id, location)
    }

    pub fn in_graph(self) -> PgLocation {
        self.1
    }
}

impl<'def> ChannelSystemRun<'def> {
    pub fn from_parts(
        def: &'def ChannelSystem,
        time: Time,
        program_graphs: Vec<ProgramGraphRun<'def>>,
        message_queue: Vec<VecDeque<Val>>,
        word: u64,
    ) -> Self {
        ChannelSystemRun {
            rng: SmallRng::of_word(word),
            time,
            message_queue,
            program_graphs,
            def,
            bump: Bump::new(),
        }
    }

    pub fn parts(&self) -> (Time, &[ProgramGraphRun<'def>], &[VecDeque<Val>]) {
        (self.time, &self.program_graphs, &self.message_queue)
    }
}
