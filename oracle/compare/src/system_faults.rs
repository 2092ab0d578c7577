//! Lines that building a system refuses: unknown graphs and channels, messages of other kinds, channels that are too large, full
//! tables.

use crate::graph::{Build, EPSILON, Items, Kind, Limit, Val};
use crate::system_building::{SystemMaker, communication_text};
use crate::system_model::{Capacity, Channel, Message};

impl SystemMaker<'_> {
    /// Faults between two sums, which have to be equal where all were refused.
    pub fn faults_between_sums(&mut self, count: usize) {
        let sums = self.maker.chance.percent(50);
        if sums {
            self.maker.say("sum s");
        }
        for _ in 0..count {
            self.fault();
        }
        if sums {
            self.maker.say("sum s");
        }
    }

    pub fn fault(&mut self) {
        match self.maker.chance.below(12) {
            0..=1 => self.odd_channel(),
            2 if self.maker.chance.percent(60) => {
                let q = self.maybe_channel();
                self.maker.say(format!("s capacity {q}"));
            }
            2 => self.kind(),
            3..=7 => self.odd_message(),
            8 => {
                let g = self.odd_graph();
                let line = *self.maker.chance.pick(&[
                    "clock",
                    "var b1",
                    "process 0",
                    "empty 99",
                    "send 99 { x }",
                    "receive 99 99",
                    "transition 0 0 0 -",
                ]);
                self.maker.say(format!("s {g} {line}"));
            }
            _ => self.odd_part(),
        }
    }

    /// The kind of a variable that may be there, of a graph that mostly is.
    fn kind(&mut self) {
        let g = match self.maker.chance.percent(80) {
            true => self.maker.chance.below(self.system.graphs.len().max(1)) as u32,
            false => self.odd_graph(),
        };
        let var = self.maker.chance.below(6);
        self.maker.say(format!("s {g} kind {var}"));
    }

    /// Any line that builds.
    pub fn building_line(&mut self) {
        match self.maker.chance.below(6) {
            0 => {
                self.maker.say("s graph");
            }
            1 => self.odd_channel(),
            2..=3 => self.odd_message(),
            _ => self.odd_part(),
        }
    }

    fn odd_graph(&mut self) -> u32 {
        let graphs = self.system.graphs.len();
        self.maker.odd_number(graphs).max(graphs as u32)
    }

    fn maybe_channel(&mut self) -> u32 {
        let channels = self.system.channels.len();
        if channels == 0 || self.maker.chance.percent(20) {
            self.maker.odd_number(channels)
        } else {
            self.maker.chance.below(channels) as u32
        }
    }

    /// A channel that is too large, or has a kind too many, or both.
    fn odd_channel(&mut self) {
        let width = *self.maker.chance.pick(&[0, 1, 2, 3, 4, 4, 5, 6]);
        let kinds = self.kinds(width);
        let capacity = match self.maker.chance.below(5) {
            0 => self.capacity(width as u32),
            _ => {
                Capacity::Bounded(
                    *self
                        .maker
                        .chance
                        .pick(&[62, 63, 64, 65, 66, 1 << 20, u32::MAX]),
                )
            }
        };
        if self.system.channels.len() < 8 && width <= 4 && self.maker.chance.percent(60) {
            // Large enough to be refused where it has a value at all.
            let most = self.maker.chance.from_to(65, 70) as u32;
            self.new_channel(Channel {
                kinds,
                capacity: Capacity::Bounded(most),
            });
        } else {
            self.new_channel(Channel { kinds, capacity });
        }
    }

    /// A message: each part of it may be wrong for itself.
    fn odd_message(&mut self) {
        if self.system.graphs.is_empty() {
            return;
        }
        let g = self.maker.chance.below(self.system.graphs.len());
        self.at(g);
        let q = self.maybe_channel();
        let kinds = match self.system.channels.get(q as usize) {
            Some(channel) if self.maker.chance.percent(50) => channel.kinds.clone(),
            _ => self.some_kinds(),
        };
        let kind = *self.maker.chance.pick(&[
            Message::Send,
            Message::Send,
            Message::Receive,
            Message::Receive,
            Message::Empty,
            Message::Full,
        ]);
        let message = match kind {
            Message::Send => Build::Send(self.odd_values(&kinds)),
            Message::Receive => Build::Receive(self.odd_variables(&kinds)),
            _ => Build::Send(vec![]),
        };
        let line = communication_text(g, kind, q, &message);
        if line.len() > 4000 {
            return;
        }
        if (q as usize) < self.system.channels.len() {
            self.communication(g, kind, q as usize, message);
        } else {
            self.maker.say_call(line);
        }
    }

    fn odd_values(&mut self, kinds: &[Kind]) -> Vec<Items> {
        if self.maker.chance.percent(25) {
            return self.maker.faulty_message();
        }
        kinds
            .iter()
            .map(|kind| match self.maker.chance.below(10) {
                0 => self.maker.maybe_expression(),
                1 => self.maker.deep(*kind, 17),
                2 => self.maker.long(*kind, 65),
                _ => self.maker.assigned(*kind),
            })
            .collect()
    }

    fn odd_variables(&mut self, kinds: &[Kind]) -> Vec<u32> {
        if self.maker.chance.percent(25) {
            return self.maker.faulty_vars();
        }
        kinds.iter().map(|_| self.maker.maybe_var()).collect()
    }

    /// A graph's own line, mostly with a fault.
    fn odd_part(&mut self) {
        if self.system.graphs.is_empty() {
            return;
        }
        let g = self.maker.chance.below(self.system.graphs.len());
        self.at(g);
        let build = match self.maker.chance.percent(30) {
            true => self.maker.all_wrong(),
            false => self.maker.faulty(),
        };
        if !matches!(build, Build::Send(_) | Build::Receive(_)) {
            self.build(g, build);
        }
    }

    /// A graph of the system up to each of its sizes and one past it.
    fn graph_sizes(&mut self, g: usize) {
        self.at(g);
        let chance = &mut self.maker.chance;
        let parts = match chance.below(5) {
            0 => (17, Build::Var(Val::Int(1))),
            1 => (9, Build::Clock),
            2 => (33, Build::Location(None)),
            3 => (5, Build::Initial(None)),
            _ => (5, Build::Process(0)),
        };
        for _ in 0..parts.0 {
            self.build(g, parts.1.clone());
        }
        let limits: Vec<Limit> = self.maker.limits(9);
        self.build(g, Build::Location(Some(limits.clone())));
        self.build(g, Build::Transition(0, EPSILON, 0, None, Some(limits)));
        if self.maker.chance.percent(25) {
            for _ in 0..129 {
                self.build(g, Build::Auto(0, 0, None, None));
            }
        }
        let plain =
            (0..self.system.entries[g].len()).find(|a| self.system.entries[g][*a].is_none());
        if let Some(action) = plain {
            for _ in 0..17 {
                self.build(g, Build::Reset(action as u32, 0));
            }
        }
    }

    /// Graphs, channels and actions up to their number and one past it.
    pub fn sizes(&mut self) {
        while self.system.graphs.len() < 8 && self.new_graph() {}
        self.new_graph();
        while self.system.channels.len() < 8 && !self.full() {
            self.some_channel();
        }
        if self.system.graphs.len() < 8 || self.system.channels.len() < 8 {
            return;
        }
        let kinds = self.kinds(1);
        for capacity in [Capacity::Unbounded, Capacity::Bounded(65)] {
            let kinds = kinds.clone();
            self.new_channel(Channel { kinds, capacity });
        }
        let g = self.maker.chance.below(8);
        self.at(g);
        self.build(g, Build::Action);
        while self.system.graphs[g].actions.len() < 32 && !self.full() {
            let q = self.maker.chance.below(8);
            let kind = *self
                .maker
                .chance
                .pick(&[Message::Empty, Message::Full, Message::Send]);
            self.role(g, kind, q);
        }
        for kind in [Message::Empty, Message::Send, Message::Receive] {
            let q = self.maker.chance.below(8);
            self.role(g, kind, q);
            self.maker.say(format!("s {g} {} 99", kind.name()));
        }
        self.build(g, Build::Action);
        self.maker.say("s build");
        for g in 0..8 {
            if self.system.graphs[g].processes.is_empty() {
                self.at(g);
                self.build(g, Build::Initial(None));
            }
        }
        self.graph_sizes(g);
    }
}
