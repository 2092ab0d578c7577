//! Ordinary systems: graphs whose senders, receivers and probes meet on channels.

use crate::graph::{Bound, Build, EPSILON, Graph, Kind, Limit, Val, expression};
use crate::maker::Maker;
use crate::recordings::Record;
use crate::system_model::{Capacity, Channel, Message, System};

/// A script about one system in the making.
pub struct SystemMaker<'a> {
    /// Its graph is the one in hand, so that parts of lines fit it.
    pub maker: Maker<'a>,
    pub system: System,
    /// The places of each graph's processes, by the accepted steps; empty before `t new`.
    pub places: Vec<Vec<u32>>,
    /// Read and write count of each queue.
    pub rings: Vec<(u32, u32)>,
    /// How often a way of a graph was taken.
    pub chosen: std::collections::BTreeMap<(usize, u32), usize>,
    /// The first calls since the last start, as records.
    pub made: Vec<Record>,
}

impl<'a> SystemMaker<'a> {
    pub fn new(mut maker: Maker<'a>) -> Self {
        maker.say("s new");
        SystemMaker {
            maker,
            system: System::default(),
            places: vec![],
            rings: vec![],
            chosen: Default::default(),
            made: vec![],
        }
    }

    pub fn fresh(&mut self) {
        self.maker.say("s new");
        self.system = System::default();
        self.places.clear();
        self.rings.clear();
        self.chosen.clear();
        self.made.clear();
    }

    pub fn new_graph(&mut self) -> bool {
        let ok = self.maker.say("s graph").starts_with("ok");
        if ok {
            self.system.graphs.push(Graph::default());
            self.system.entries.push(vec![]);
        }
        ok
    }

    pub fn new_channel(&mut self, channel: Channel) -> bool {
        let ok = self.maker.say_call(channel.text()).starts_with("ok");
        if ok {
            self.system.channels.push(channel);
            self.rings.push((0, 0));
        }
        ok
    }

    /// Takes a graph in hand.
    pub fn at(&mut self, g: usize) {
        self.maker.graph = self.system.graphs[g].clone();
    }

    /// A line that builds on a graph. A message needs its channel: see `communication`.
    pub fn build(&mut self, g: usize, build: Build) -> bool {
        let line = format!("s {g} {}", &build.text()[2..]);
        let ok = self.maker.say_call(line).starts_with("ok");
        if ok {
            self.applied(g, &build, None);
        }
        ok
    }

    fn applied(&mut self, g: usize, build: &Build, entry: Option<(Message, usize)>) {
        self.system.graphs[g].apply(build);
        let actions = self.system.graphs[g].actions.len();
        if self.system.entries[g].len() < actions {
            self.system.entries[g].push(entry);
        }
        self.at(g);
    }

    /// A communication action; the message is `Build::Send` or `Build::Receive`, of no values for a probe.
    pub fn communication(&mut self, g: usize, kind: Message, q: usize, message: Build) -> bool {
        let line = communication_text(g, kind, q as u32, &message);
        let ok = self.maker.say_call(line).starts_with("ok");
        if ok {
            self.applied(g, &message, Some((kind, q)));
        }
        ok
    }

    /// Graphs and channels in any order, then each graph.
    pub fn ordinary_system(&mut self, graphs: usize, channels: usize) {
        let mut list: Vec<bool> = (0..graphs + channels).map(|k| k < graphs).collect();
        self.maker.chance.shuffle(&mut list);
        for graph in list {
            if graph {
                self.new_graph();
            } else {
                self.some_channel();
            }
        }
        let mut order: Vec<usize> = (0..self.system.graphs.len()).collect();
        self.maker.chance.shuffle(&mut order);
        let roles = self.roles();
        for g in order {
            self.graph(g, &roles[g]);
        }
        if self.maker.chance.percent(80) {
            self.maker.say("s build");
        }
    }

    pub fn some_kinds(&mut self) -> Vec<Kind> {
        let width = *self.maker.chance.pick(&[0, 1, 1, 1, 2, 2, 2, 3, 3, 4, 4]);
        self.kinds(width)
    }

    pub fn kinds(&mut self, width: usize) -> Vec<Kind> {
        (0..width)
            .map(|_| *self.maker.chance.pick(&[Kind::Bool, Kind::Int]))
            .collect()
    }

    /// Capacities stand around 0, the width, and the room of a queue.
    pub fn capacity(&mut self, width: u32) -> Capacity {
        let chance = &mut self.maker.chance;
        match chance.below(20) {
            0..=3 => Capacity::Unbounded,
            4..=6 => Capacity::Sink,
            7..=8 => Capacity::Bounded(*chance.pick(&[0, 0, 1])),
            9..=10 => Capacity::Bounded(*chance.pick(&[61, 62, 63, 64, 65, 66])),
            11 => Capacity::Bounded(*chance.pick(&[64, 65, 128, 1 << 31, u32::MAX])),
            _ => Capacity::Bounded(*chance.pick(&[
                width.saturating_sub(1),
                width,
                width + 1,
                2 * width,
                2 * width + 1,
                3 * width,
                1,
                2,
                3,
                5,
                8,
            ])),
        }
    }

    /// A channel; one that is refused is followed by another try.
    pub fn some_channel(&mut self) {
        for _ in 0..3 {
            let kinds = self.some_kinds();
            let capacity = self.capacity(kinds.len() as u32);
            if self.new_channel(Channel { kinds, capacity }) {
                return;
            }
        }
    }

    /// Who does what on which channel: each has a sender and a receiver, most a probe.
    fn roles(&mut self) -> Vec<Vec<(Message, usize)>> {
        let graphs = self.system.graphs.len();
        let mut roles = vec![vec![]; graphs];
        let chance = &mut self.maker.chance;
        if graphs == 0 {
            return roles;
        }
        for (q, channel) in self.system.channels.iter().enumerate() {
            roles[chance.below(graphs)].push((Message::Send, q));
            roles[chance.below(graphs)].push((Message::Receive, q));
            let probes = match channel.capacity {
                Capacity::Bounded(0) => 90,
                _ => 45,
            };
            for kind in [Message::Empty, Message::Full] {
                if chance.percent(probes) {
                    roles[chance.below(graphs)].push((kind, q));
                }
            }
            if chance.percent(30) {
                let kind = *chance.pick(&[Message::Send, Message::Receive]);
                roles[chance.below(graphs)].push((kind, q));
            }
        }
        roles
    }

    fn graph(&mut self, g: usize, roles: &[(Message, usize)]) {
        self.at(g);
        self.variables_and_clocks(g, roles);
        let processes = *self.maker.chance.pick(&[1, 1, 1, 1, 1, 1, 2, 2, 3]);
        let locations = self
            .maker
            .chance
            .from_to(1, if processes == 1 { 3 } else { 2 });
        for l in 0..locations {
            self.location(g, l == 0);
        }
        let mut tries = 0;
        while self.system.graphs[g].processes.len() < processes && tries < 6 {
            let place = self.maker.chance.below(locations) as u32;
            self.build(g, Build::Process(place));
            tries += 1;
        }
        self.plain_action(g);
        for (kind, q) in roles {
            self.role(g, *kind, *q);
        }
        if self.maker.chance.percent(15) {
            self.plain_action(g);
        }
        self.transitions(g);
    }

    fn variables_and_clocks(&mut self, g: usize, roles: &[(Message, usize)]) {
        for _ in 0..*self.maker.chance.pick(&[0, 1, 1, 1, 2, 2]) {
            self.build(g, Build::Clock);
        }
        let mut kinds: Vec<Kind> = vec![];
        for (kind, q) in roles {
            if *kind == Message::Receive {
                kinds.extend(&self.system.channels[*q].kinds);
            }
        }
        kinds.sort_by_key(|kind| *kind == Kind::Int);
        if kinds.len() > 6 {
            kinds.dedup();
        }
        if kinds.is_empty() && self.maker.chance.percent(60) {
            kinds.push(Kind::Int);
        }
        for kind in kinds {
            let val = match kind {
                Kind::Int => Val::Int(self.maker.chance.below(4) as i32),
                Kind::Bool => Val::Bool(self.maker.chance.percent(50)),
            };
            self.build(g, Build::Var(val));
        }
    }

    /// Most graphs have a deadline somewhere.
    fn location(&mut self, g: usize, first: bool) {
        let clocks = self.system.graphs[g].clocks;
        let invariants = if clocks > 0 && self.maker.chance.percent(50) {
            let time = self.maker.chance.from_to(2, 14) as u32;
            let clock = self.maker.chance.below(clocks) as u32;
            let high = if self.maker.chance.percent(70) {
                Bound::Included(time)
            } else {
                Bound::Excluded(time)
            };
            Some(vec![Limit {
                clock,
                low: Bound::Absent,
                high,
            }])
        } else if self.maker.chance.percent(10) {
            self.maker.some_invariants()
        } else {
            None
        };
        if !first {
            self.build(g, Build::Location(invariants));
        } else if !self.build(g, Build::Initial(invariants)) {
            self.build(g, Build::Initial(None));
        }
    }

    /// Resets every clock, so that a deadline can be met.
    fn plain_action(&mut self, g: usize) {
        self.build(g, Build::Action);
        let action = self.system.graphs[g].actions.len().saturating_sub(1) as u32;
        for clock in 0..self.system.graphs[g].clocks as u32 {
            self.build(g, Build::Reset(action, clock));
        }
        for _ in 0..*self.maker.chance.pick(&[0, 0, 1, 1, 2]) {
            let vars = self.system.graphs[g].vars.len();
            if vars > 0 {
                let var = self.maker.chance.below(vars);
                let items = self.maker.assigned(self.system.graphs[g].vars[var].kind());
                self.build(g, Build::Effect(action, var as u32, items));
            }
        }
    }

    pub fn role(&mut self, g: usize, kind: Message, q: usize) {
        let message = match kind {
            Message::Send => {
                let kinds = self.system.channels[q].kinds.clone();
                Build::Send(kinds.into_iter().map(|k| self.maker.assigned(k)).collect())
            }
            Message::Receive => Build::Receive(self.variables(g, q)),
            Message::Empty | Message::Full => Build::Send(vec![]),
        };
        self.communication(g, kind, q, message);
    }

    /// Variables of a channel's kinds; now and then one stands twice.
    fn variables(&mut self, g: usize, q: usize) -> Vec<u32> {
        let kinds = self.system.channels[q].kinds.clone();
        let graph = &self.system.graphs[g];
        kinds
            .into_iter()
            .map(|kind| {
                let vars = graph.vars_of(kind);
                vars.get(self.maker.chance.below(vars.len()))
                    .copied()
                    .unwrap_or(0)
            })
            .collect()
    }

    /// Around all locations by the first action; every other action at most places, sends mostly back to where they were.
    fn transitions(&mut self, g: usize) {
        let graph = &self.system.graphs[g];
        let (locations, actions) = (graph.locations.len() as u32, graph.actions.len() as u32);
        let several = graph.processes.len() > 1;
        let mut list = vec![];
        for pre in 0..locations {
            list.push(Build::Transition(pre, 0, (pre + 1) % locations, None, None));
            for action in (1..actions).chain([EPSILON]) {
                let share = match action {
                    EPSILON => 20,
                    _ if several => 90,
                    _ => 75,
                };
                if self.maker.chance.percent(share) {
                    list.push(self.transition(g, pre, action));
                }
            }
        }
        self.maker.chance.shuffle(&mut list);
        for build in list {
            self.build(g, build);
        }
    }

    pub fn transition(&mut self, g: usize, pre: u32, action: u32) -> Build {
        let locations = self.system.graphs[g].locations.len();
        let chance = &mut self.maker.chance;
        let post = if chance.percent(60) {
            pre
        } else {
            chance.below(locations) as u32
        };
        let guard = if chance.percent(20) {
            self.maker.guard()
        } else {
            None
        };
        let limits = if self.maker.chance.percent(15) {
            self.maker.some_limits()
        } else {
            None
        };
        if action == EPSILON && self.maker.chance.percent(60) {
            Build::Auto(pre, post, guard, limits)
        } else {
            Build::Transition(pre, action, post, guard, limits)
        }
    }
}

/// The line of a communication action.
pub fn communication_text(g: usize, kind: Message, q: u32, message: &Build) -> String {
    let start = format!("s {g} {} {q}", kind.name());
    match (kind, message) {
        (Message::Send, Build::Send(list)) => list
            .iter()
            .fold(start, |text, items| text + " " + &expression(items)),
        (Message::Receive, Build::Receive(vars)) => {
            vars.iter().fold(start, |text, var| format!("{text} {var}"))
        }
        _ => start,
    }
}
