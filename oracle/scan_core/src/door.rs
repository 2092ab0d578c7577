//! A door into the text: numbers become ids, and a run is made of its parts and taken apart.
//!
//! A child of the module `run`, so it may use what is private there and in `program_graph`. It changes nothing.

use super::super::{Action, Clock, Location, PgError, ProgramGraph, ProgramGraphBuilder, Var};
use super::ProgramGraphRun;
use crate::{Expression, Time, Type, Val};
use bumpalo::Bump;
use rand::Rng;

impl Location {
    pub fn numbered(number: u32) -> Self {
        Location(number)
    }

    pub fn number(self) -> u32 {
        self.0
    }
}

impl Action {
    /// The number 4294967295 is EPSILON's.
    pub fn numbered(number: u32) -> Self {
        Action(number)
    }

    pub fn number(self) -> u32 {
        self.0
    }
}

impl Var {
    pub fn numbered(number: u16) -> Self {
        Var(number)
    }

    pub fn number(self) -> u16 {
        self.0
    }
}

impl Clock {
    pub fn numbered(number: u16) -> Self {
        Clock(number)
    }

    pub fn number(self) -> u16 {
        self.0
    }
}

impl ProgramGraphBuilder {
    pub fn open_new_send(&mut self, msgs: Vec<Expression<Var>>) -> Result<Action, PgError> {
        self.new_send(msgs)
    }

    pub fn open_new_receive(&mut self, vars: Vec<Var>) -> Result<Action, PgError> {
        self.new_receive(vars)
    }

    pub fn open_var_type(&self, var: Var) -> Result<Type, PgError> {
        self.var_type(var)
    }
}

impl<'def> ProgramGraphRun<'def> {
    pub fn from_parts(
        def: &'def ProgramGraph,
        current_states: Vec<Location>,
        vars: Vec<Val>,
        clocks: Vec<Time>,
    ) -> Self {
        ProgramGraphRun {
            current_states,
            vars,
            clocks,
            def,
            bump: Bump::new(),
        }
    }

    pub fn parts(&self) -> (&[Location], &[Val], &[Time]) {
        (&self.current_states, &self.vars, &self.clocks)
    }

    pub fn open_send<R: Rng>(
        &mut self,
        action: Action,
        post_states: &[Location],
        rng: &mut R,
    ) -> Result<Vec<Val>, PgError> {
        self.send(action, post_states, rng)
    }

    pub fn open_receive(
        &mut self,
        action: Action,
        post_states: &[Location],
        vals: &[Val],
    ) -> Result<(), PgError> {
        self.receive(action, post_states, vals)
    }
}
