//! Ordinary graphs: 1 to 4 processes, few locations and actions, so that runs on them go far.

use crate::graph::{Build, EPSILON, Kind, Val};
use crate::maker::Maker;

/// How large a graph is to be.
struct Size {
    processes: usize,
    locations: usize,
    actions: usize,
    transitions: usize,
}

impl Maker<'_> {
    /// Builds a graph by about `room` lines at most.
    pub fn ordinary_graph(&mut self, room: usize) {
        let processes = *self.chance.pick(&[1, 1, 1, 1, 2, 2, 2, 3, 3, 4]);
        let size = Size {
            processes,
            locations: self.chance.from_to(2, if processes == 1 { 8 } else { 4 }),
            actions: self.chance.from_to(1, if processes == 1 { 6 } else { 4 }),
            transitions: room,
        };
        self.variables_and_clocks();
        let lively = self.chance.percent(85);
        self.actions_and_locations(&size, lively);
        self.transitions(&size, lively);
        if self.chance.percent(80) {
            self.say("g build");
        }
    }

    fn variables_and_clocks(&mut self) {
        let vars = *self.chance.pick(&[0, 1, 2, 2, 3, 3, 4, 5]);
        let clocks = *self.chance.pick(&[0, 1, 1, 1, 2, 2, 2, 3, 3, 8]);
        let mut list: Vec<Build> = (0..clocks).map(|_| Build::Clock).collect();
        for _ in 0..vars {
            let val = if self.chance.percent(60) {
                Val::Int(self.chance.from_to(0, 4) as i32)
            } else {
                self.any_value()
            };
            list.push(Build::Var(val));
        }
        self.chance.shuffle(&mut list);
        for build in list {
            self.build(build);
        }
    }

    /// Actions and locations in mixed order. In a lively graph action 0 is plain and resets every clock.
    fn actions_and_locations(&mut self, size: &Size, lively: bool) {
        let (mut actions, mut locations) = (0, 0);
        while (actions < size.actions || locations < size.locations) && !self.full() {
            let action =
                locations == size.locations || actions < size.actions && self.chance.percent(50);
            if action {
                self.new_action(lively && actions == 0);
                actions += 1;
            } else {
                self.new_location(size, locations);
                locations += 1;
            }
        }
        let mut tries = 0;
        while self.graph.processes.len() < size.processes && tries < 8 && !self.full() {
            let place = self.chance.below(self.graph.locations.len()) as u32;
            self.build(Build::Process(place));
            tries += 1;
        }
    }

    fn new_location(&mut self, size: &Size, made: usize) {
        let invariants = self.some_invariants();
        let first =
            made == 0 || self.graph.processes.len() < size.processes && self.chance.percent(30);
        if first && !self.build(Build::Initial(invariants.clone())) {
            self.build(Build::Initial(None));
        } else if !first {
            self.build(Build::Location(invariants));
        }
    }

    fn new_action(&mut self, clearing: bool) {
        match self.chance.below(10) {
            0..=1 if !clearing => self.new_send(),
            2..=3 if !clearing => self.new_receive(),
            _ => self.new_plain(clearing),
        }
    }

    fn new_send(&mut self) {
        let width = *self.chance.pick(&[0, 1, 1, 2, 3, 4]);
        let mut list = vec![];
        for _ in 0..width {
            let kind = if self.chance.percent(50) {
                Kind::Bool
            } else {
                Kind::Int
            };
            list.push(self.assigned(kind));
        }
        self.build(Build::Send(list));
    }

    fn new_receive(&mut self) {
        let width = *self.chance.pick(&[0, 1, 1, 2, 3, 4]);
        let known = self.graph.vars.len();
        let width = if known == 0 { 0 } else { width };
        let vars = (0..width)
            .map(|_| self.chance.below(known) as u32)
            .collect();
        self.build(Build::Receive(vars));
    }

    fn new_plain(&mut self, clearing: bool) {
        self.build(Build::Action);
        let action = self.graph.actions.len().saturating_sub(1) as u32;
        let mut list = vec![];
        for clock in 0..self.graph.clocks as u32 {
            if clearing || self.chance.percent(40) {
                list.push(Build::Reset(action, clock));
            }
        }
        for _ in 0..*self.chance.pick(&[0, 1, 1, 2, 2, 3, 5]) {
            if self.graph.vars.is_empty() {
                break;
            }
            let var = self.chance.below(self.graph.vars.len());
            let items = self.assigned(self.graph.vars[var].kind());
            list.push(Build::Effect(action, var as u32, items));
        }
        self.chance.shuffle(&mut list);
        for build in list {
            self.build(build);
        }
    }

    /// Transitions in shuffled order, some with equal pre-location, action and post-location.
    fn transitions(&mut self, size: &Size, lively: bool) {
        let (mut ways, mut list) = (vec![], vec![]);
        let (locations, actions) = (self.graph.locations.len(), self.graph.actions.len());
        let mut round: Vec<u32> = (0..locations as u32).collect();
        self.chance.shuffle(&mut round);
        for pre in 0..locations as u32 {
            if lively {
                // Always a way on, around all locations.
                let (from, to) = (round[pre as usize], round[(pre as usize + 1) % locations]);
                ways.push(Build::Transition(from, 0, to, None, None));
            }
            // Several processes step together: each needs the action at its place.
            let share = if size.processes > 1 { 85 } else { 45 };
            for action in 0..=actions as u32 {
                if self.chance.percent(share) {
                    let action = if action == actions as u32 {
                        EPSILON
                    } else {
                        action
                    };
                    let again = self.chance.percent(15);
                    list.push(self.transition(pre, action, again));
                }
            }
        }
        for k in 0..list.len() {
            if self.chance.percent(15) {
                let again = self.twin(&list[k].clone());
                list.push(again);
            }
        }
        self.chance.shuffle(&mut list);
        list.truncate(size.transitions.saturating_sub(ways.len()));
        list.extend(ways);
        self.chance.shuffle(&mut list);
        for build in list {
            self.build(build);
        }
    }

    fn transition(&mut self, pre: u32, action: u32, free: bool) -> Build {
        let post = self.chance.below(self.graph.locations.len()) as u32;
        let (guard, limits) = if free {
            (None, None)
        } else {
            (self.guard(), self.some_limits())
        };
        if action == EPSILON && self.chance.percent(70) {
            Build::Auto(pre, post, guard, limits)
        } else {
            Build::Transition(pre, action, post, guard, limits)
        }
    }

    /// The same three numbers with another guard and other limits.
    fn twin(&mut self, build: &Build) -> Build {
        let (guard, limits) = (self.guard(), self.some_limits());
        match build {
            Build::Transition(pre, action, post, ..) => {
                Build::Transition(*pre, *action, *post, guard, limits)
            }
            Build::Auto(pre, post, ..) => Build::Auto(*pre, *post, guard, limits),
            other => other.clone(),
        }
    }
}
