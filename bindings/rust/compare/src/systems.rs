//! A random system, built in both. Every building call is made on both, and they have to answer the same.

use crate::chance::Chance;
use crate::expressions::{Maker, TheirItems, their_type, their_val};
use njunnemar::channel_system::{self as ours, ChannelSystem, ChannelSystemBuilder, CsError, PgId};
use njunnemar::{TimeRange, Type, Val};
use scan_core::channel_system as theirs;
use scan_core::program_graph as their_pg;
use scan_core::{BooleanExpr as TheirGuard, Expression as TheirExpression};
use std::fmt::Debug;
use std::ops::Bound;

/// Ids of the crate by their numbers, from a builder that has plenty of everything.
pub struct Ids {
    pub graphs: Vec<PgId>,
    pub channels: Vec<ours::Channel>,
    pub locations: Vec<Vec<ours::Location>>,
    pub actions: Vec<Vec<ours::Action>>,
    pub vars: Vec<Vec<ours::Var>>,
    pub clocks: Vec<Vec<ours::Clock>>,
}

const GRAPHS: usize = 4;

impl Ids {
    fn new() -> Result<Self, CsError> {
        let mut b = ChannelSystemBuilder::new();
        let mut ids = Ids { graphs: vec![], channels: vec![], locations: vec![], actions: vec![], vars: vec![], clocks: vec![] };
        for _ in 0..GRAPHS {
            let g = b.new_program_graph()?;
            ids.graphs.push(g);
            ids.locations.push((0..8).map(|_| b.new_location(g)).collect::<Result<_, _>>()?);
            ids.actions.push((0..16).map(|_| b.new_action(g)).collect::<Result<_, _>>()?);
            ids.vars.push((0..8).map(|_| b.new_var(g, Val::from(0))).collect::<Result<_, _>>()?);
            ids.clocks.push((0..6).map(|_| b.new_clock(g)).collect::<Result<_, _>>()?);
        }
        for _ in 0..8 {
            ids.channels.push(b.new_channel(vec![], None)?);
        }
        Ok(ids)
    }
}

/// How many parts a graph has.
#[derive(Default)]
pub struct Counts {
    pub locations: usize,
    pub actions: usize,
    pub vars: Vec<Type>,
    pub clocks: usize,
    pub processes: usize,
}

pub struct Both {
    pub ids: Ids,
    pub counts: Vec<Counts>,
    pub widths: Vec<usize>,
    pub ours: ChannelSystem,
    pub theirs: theirs::ChannelSystem,
    pub calls: usize,
    /// How often each number was refused, by both.
    pub refused: [usize; 32],
}

struct Building<'a> {
    chance: &'a mut Chance,
    ids: Ids,
    counts: Vec<Counts>,
    types: Vec<Vec<Type>>,
    ours: ChannelSystemBuilder,
    theirs: theirs::ChannelSystemBuilder,
    calls: usize,
    refused: [usize; 32],
}

/// A limit's range for both.
fn range(chance: &mut Chance) -> (TimeRange, scan_core::TimeRange) {
    let mut bound = |most: usize| match chance.below(3) {
        0 => Bound::Unbounded,
        1 => Bound::Included(chance.below(most) as u32),
        _ => Bound::Excluded(chance.below(most) as u32),
    };
    let ends = (bound(6), bound(30));
    (TimeRange::new(ends), scan_core::TimeRange::new(ends))
}

type BothLimits = (Vec<(ours::Clock, TimeRange)>, Vec<(their_pg::Clock, scan_core::TimeRange)>);

impl Building<'_> {
    /// Both answers print alike, but for the numbers that an accepted call gives.
    fn same<T, U>(&mut self, ours: Result<T, CsError>, theirs: Result<U, theirs::CsError>) -> bool
    where
        T: Debug,
        U: Debug,
    {
        self.calls += 1;
        match (ours, theirs) {
            (Ok(_), Ok(_)) => true,
            (Err(ours), Err(theirs)) => {
                assert_eq!(format!("{ours:?}"), format!("{theirs:?}"));
                self.refused[ours.number() as usize] += 1;
                false
            }
            (ours, theirs) => panic!("ours {ours:?}, theirs {theirs:?}"),
        }
    }

    /// A building call on a graph of the Rust's; a refused one leaves it as it was.
    fn on_theirs<T>(
        &mut self,
        g: usize,
        call: impl FnOnce(&mut their_pg::ProgramGraphBuilder) -> Result<T, their_pg::PgError>,
    ) -> Result<T, theirs::CsError> {
        let pg_id = theirs::PgId::numbered(g as u16);
        let mut copy = self.theirs.clone();
        let answer = copy.on_graph(pg_id, call)?.map_err(|error| theirs::CsError::ProgramGraph(pg_id, error))?;
        self.theirs = copy;
        Ok(answer)
    }

    fn limits(&mut self, g: usize) -> BothLimits {
        let (mut ours, mut theirs) = (vec![], vec![]);
        for _ in 0..self.chance.below(3) {
            let clocks = self.counts[g].clocks;
            let clock = if self.chance.percent(3) || clocks == 0 { 5 } else { self.chance.below(clocks) };
            let (range, their_range) = range(self.chance);
            ours.push((self.ids.clocks[g][clock], range));
            theirs.push((their_pg::Clock::numbered(clock as u16), their_range));
        }
        (ours, theirs)
    }

    fn expression(&mut self, g: usize, r#type: Type) -> (ours::CsExpression, TheirItems) {
        let vars = self.vars(g);
        let mut items = vec![];
        let mut maker = Maker { chance: self.chance, vars: &vars, draws: true };
        (maker.expression(r#type, &mut items), items)
    }

    /// The variables of a graph, and sometimes one that it does not have.
    fn vars(&mut self, g: usize) -> Vec<(ours::Var, Type)> {
        let mut vars: Vec<_> = self.ids.vars[g].iter().copied().zip(self.counts[g].vars.iter().copied()).collect();
        if self.chance.percent(3) {
            vars.push((self.ids.vars[g][7], Type::Integer));
        }
        vars
    }

    fn any_type(&mut self) -> Type {
        if self.chance.percent(40) { Type::Boolean } else { Type::Integer }
    }

    fn channel(&mut self) {
        let types: Vec<Type> = (0..self.chance.below(3)).map(|_| self.any_type()).collect();
        let (capacity, their_capacity) = match self.chance.below(6) {
            0 => (ours::ChannelCapacity::Sink, theirs::ChannelCapacity::Sink),
            1 => (ours::ChannelCapacity::Queue(None), theirs::ChannelCapacity::Queue(None)),
            _ => {
                let bound = self.chance.below(5);
                (ours::ChannelCapacity::Queue(Some(bound as u32)), theirs::ChannelCapacity::Queue(Some(bound)))
            }
        };
        let answer = self.ours.new_channel(types.clone(), capacity).expect("there is room");
        let their_types = types.iter().map(|t| their_type(*t)).collect();
        assert_eq!(u32::from(answer), u32::from(self.theirs.new_channel(their_types, their_capacity).number()));
        self.types.push(types);
    }

    fn parts(&mut self, g: usize) {
        let pg = self.ids.graphs[g];
        for _ in 0..1 + self.chance.below(4) {
            let val = match self.any_type() {
                Type::Boolean => Val::from(self.chance.percent(50)),
                Type::Integer => Val::from(self.chance.below(7) as i32 - 2),
            };
            let (ours, theirs) = (self.ours.new_var(pg, val), self.on_theirs(g, |graph| Ok(graph.new_var(their_val(val)))));
            assert!(self.same(ours, theirs));
            self.counts[g].vars.push(val.r#type());
        }
        for _ in 0..self.chance.below(3) {
            let (ours, theirs) = (self.ours.new_clock(pg), self.on_theirs(g, |graph| Ok(graph.new_clock())));
            assert!(self.same(ours, theirs));
            self.counts[g].clocks += 1;
        }
        let processes = if self.chance.percent(15) { 2 } else { 1 };
        while self.counts[g].processes < processes {
            let (limits, their_limits) = self.limits(g);
            let ours = self.ours.new_initial_timed_location(pg, limits);
            let theirs = self.on_theirs(g, |graph| graph.new_initial_timed_location(their_limits));
            if self.same(ours, theirs) {
                self.counts[g].locations += 1;
                self.counts[g].processes += 1;
            }
        }
        for _ in 0..1 + self.chance.below(3) {
            let (limits, their_limits) = self.limits(g);
            let ours = self.ours.new_timed_location(pg, limits);
            let theirs = self.on_theirs(g, |graph| graph.new_timed_location(their_limits));
            if self.same(ours, theirs) {
                self.counts[g].locations += 1;
            }
        }
    }

    fn action(&mut self, g: usize) {
        let (pg, their_pg) = (self.ids.graphs[g], theirs::PgId::numbered(g as u16));
        let q = if self.chance.percent(4) { 7 } else { self.chance.below(self.types.len()) };
        let (channel, their_channel) = (self.ids.channels[q], theirs::Channel::numbered(q as u16));
        let mut types = self.types.get(q).cloned().unwrap_or_default();
        if self.chance.percent(5) {
            types.push(Type::Integer);
        }
        let accepted = match self.chance.below(8) {
            0 | 1 => {
                let (ours, theirs) = (self.ours.new_action(pg), self.theirs.new_action(their_pg));
                self.same(ours, theirs)
            }
            2..5 => {
                let (mut messages, mut their_messages) = (vec![], vec![]);
                for r#type in types {
                    let (message, items) = self.expression(g, r#type);
                    messages.push(message);
                    their_messages.push(TheirExpression::from_items(&items));
                }
                let ours = self.ours.new_send(pg, channel, messages);
                let theirs = self.theirs.new_send(their_pg, their_channel, their_messages);
                self.same(ours, theirs)
            }
            5 | 6 => {
                let mut vars = vec![];
                for r#type in types {
                    let fit: Vec<usize> = (0..8).filter(|v| self.counts[g].vars.get(*v) == Some(&r#type)).collect();
                    vars.push(if fit.is_empty() { 7 } else { *self.chance.pick(&fit) });
                }
                let ours = self.ours.new_receive(pg, channel, vars.iter().map(|v| self.ids.vars[g][*v]).collect());
                let their_vars = vars.iter().map(|v| their_pg::Var::numbered(*v as u16)).collect();
                let theirs = self.theirs.new_receive(their_pg, their_channel, their_vars);
                self.same(ours, theirs)
            }
            _ => {
                let (ours, message) = if self.chance.percent(50) {
                    (self.ours.new_probe_empty_queue(pg, channel), theirs::Message::ProbeEmptyQueue)
                } else {
                    (self.ours.new_probe_full_queue(pg, channel), theirs::Message::ProbeFullQueue)
                };
                let theirs = self.theirs.new_probe(their_pg, their_channel, message);
                self.same(ours, theirs)
            }
        };
        self.counts[g].actions += usize::from(accepted);
    }

    /// A number of an action: mostly one that is there, or EPSILON's.
    fn some_action(&mut self, g: usize, epsilon: usize) -> (ours::Action, their_pg::Action) {
        if self.chance.percent(epsilon) {
            return (ours::Action::epsilon(self.ids.graphs[g]), their_pg::Action::numbered(u32::MAX));
        }
        let actions = self.counts[g].actions;
        let number = if self.chance.percent(2) || actions == 0 { 15 } else { self.chance.below(actions) };
        (self.ids.actions[g][number], their_pg::Action::numbered(number as u32))
    }

    fn some_location(&mut self, g: usize) -> usize {
        if self.chance.percent(1) { 7 } else { self.chance.below(self.counts[g].locations) }
    }

    fn effect(&mut self, g: usize) {
        let (action, their_action) = self.some_action(g, 3);
        let v = if self.chance.percent(3) { 7 } else { self.chance.below(self.counts[g].vars.len()) };
        let r#type = self.counts[g].vars.get(v).copied().filter(|_| self.chance.percent(95)).unwrap_or(Type::Integer);
        let (effect, items) = self.expression(g, r#type);
        let ours = self.ours.add_effect(self.ids.graphs[g], action, self.ids.vars[g][v], effect);
        let theirs = self
            .on_theirs(g, |graph| graph.add_effect(their_action, their_pg::Var::numbered(v as u16), TheirExpression::from_items(&items)));
        self.same(ours, theirs);
    }

    fn reset(&mut self, g: usize) {
        let (action, their_action) = self.some_action(g, 3);
        let clocks = self.counts[g].clocks;
        let c = if self.chance.percent(3) || clocks == 0 { 5 } else { self.chance.below(clocks) };
        let ours = self.ours.add_reset(self.ids.graphs[g], action, self.ids.clocks[g][c]);
        let theirs = self.on_theirs(g, |graph| graph.add_reset(their_action, their_pg::Clock::numbered(c as u16)));
        self.same(ours, theirs);
    }

    fn transition(&mut self, g: usize) {
        let (action, their_action) = self.some_action(g, 12);
        let (pre, post) = (self.some_location(g), self.some_location(g));
        let (limits, their_limits) = if self.chance.percent(40) { self.limits(g) } else { (vec![], vec![]) };
        let (mut guard, mut their_guard) = (None, None);
        if self.chance.percent(35) {
            let (vars, draws) = (self.vars(g), self.chance.percent(5));
            let mut items = vec![];
            let mut maker = Maker { chance: self.chance, vars: &vars, draws };
            guard = Some(maker.boolean(2, &mut items));
            their_guard = Some(TheirGuard::from_items(&items));
        }
        let ids = &self.ids;
        let ours = self.ours.add_timed_transition(ids.graphs[g], ids.locations[g][pre], action, ids.locations[g][post], guard, limits);
        let their_location = |number: usize| their_pg::Location::numbered(number as u32);
        let theirs = self.on_theirs(g, |graph| {
            graph.add_timed_transition(their_location(pre), their_action, their_location(post), their_guard, their_limits)
        });
        self.same(ours, theirs);
    }
}

/// A system from chance.
pub fn build(chance: &mut Chance) -> Both {
    let ids = Ids::new().expect("there is room");
    let mut b = Building {
        chance,
        ids,
        counts: vec![],
        types: vec![],
        ours: ChannelSystemBuilder::new(),
        theirs: theirs::ChannelSystemBuilder::default(),
        calls: 0,
        refused: [0; 32],
    };
    for _ in 0..1 + b.chance.below(4) {
        b.channel();
    }
    for g in 0..1 + b.chance.below(GRAPHS - 1) {
        b.ours.new_program_graph().expect("there is room");
        b.theirs.new_program_graph();
        b.counts.push(Counts::default());
        b.parts(g);
        for _ in 0..3 + b.chance.below(5) {
            b.action(g);
        }
        for _ in 0..b.chance.below(6) {
            b.effect(g);
            b.reset(g);
        }
        for _ in 0..8 + b.chance.below(14) {
            b.transition(g);
        }
    }
    let widths = b.types.iter().map(Vec::len).collect();
    let ours = b.ours.build().expect("each graph has a process");
    Both { ids: b.ids, counts: b.counts, widths, ours, theirs: b.theirs.build(), calls: b.calls, refused: b.refused }
}
