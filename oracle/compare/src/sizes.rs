//! Building up to and over every table size of docs/RULES.md, with other faults at the edge.

use crate::graph::{Build, EPSILON, Item, Kind, Val};
use crate::maker::Maker;

impl Maker<'_> {
    /// Fills one or more tables, then runs on what is there.
    pub fn sizes_script(&mut self) {
        self.some_base();
        let rounds = self.chance.from_to(1, 3);
        for _ in 0..rounds {
            match self.chance.below(11) {
                0 => self.fill_vars(),
                1 => self.fill_clocks(),
                2 => self.fill_locations(),
                3 => self.fill_actions(),
                4 => self.fill_processes(),
                5..=6 => self.fill_transitions(),
                7 => self.fill_limits(),
                8 => self.fill_effects(),
                9 => self.fill_resets(),
                _ => self.fill_items(),
            }
            if self.chance.percent(60) {
                self.fill_draws();
            }
        }
        self.say("g build");
        self.start_run();
        let upto = self.wanted;
        self.run_calls(upto);
    }

    fn some_base(&mut self) {
        for _ in 0..self.chance.from_to(1, 3) {
            let val = self.any_value();
            self.build(Build::Var(val));
        }
        for _ in 0..self.chance.from_to(0, 2) {
            self.build(Build::Clock);
        }
        self.build(Build::Action);
        self.build(Build::Initial(None));
        let invariants = self.some_invariants();
        self.build(Build::Location(invariants));
        self.build(Build::Transition(0, 0, 0, None, None));
    }

    /// Faults while a table is full.
    fn at_the_edge(&mut self) {
        for _ in 0..self.chance.from_to(1, 4) {
            let build = if self.chance.percent(50) {
                self.faulty()
            } else {
                self.all_wrong()
            };
            self.build(build);
        }
    }

    fn fill_vars(&mut self) {
        while self.graph.vars.len() < 16 && !self.full() {
            let val = self.any_value();
            self.build(Build::Var(val));
        }
        let val = self.any_value();
        self.build(Build::Var(val));
        self.at_the_edge();
    }

    fn fill_clocks(&mut self) {
        while self.graph.clocks < 8 && !self.full() {
            self.build(Build::Clock);
        }
        self.build(Build::Clock);
        let eight = self.limits(8);
        self.build(Build::Location(Some(eight)));
        self.at_the_edge();
    }

    fn fill_locations(&mut self) {
        while self.graph.locations.len() < 32 && !self.full() {
            let invariants = self.some_invariants();
            let initial = self.graph.processes.len() < 4 && self.chance.percent(10);
            self.build(if initial {
                Build::Initial(invariants)
            } else {
                Build::Location(invariants)
            });
        }
        self.build(Build::Location(None));
        self.build(Build::Initial(None));
        let limits = self.maybe_limits();
        self.build(Build::Initial(limits.clone()));
        self.build(Build::Location(limits));
        let pre = self.maybe_location();
        self.build(Build::Transition(pre, 0, 31, None, None));
        self.build(Build::Transition(31, EPSILON, 32, None, None));
        self.at_the_edge();
    }

    fn fill_actions(&mut self) {
        while self.graph.actions.len() < 32 && !self.full() {
            let build = match self.chance.below(6) {
                0 => Build::Send(vec![self.assigned(Kind::Bool)]),
                1 => Build::Receive(vec![0]),
                _ => Build::Action,
            };
            self.build(build);
        }
        self.build(Build::Action);
        self.build(Build::Send(vec![]));
        self.build(Build::Receive(vec![0]));
        let message = vec![self.maybe_expression()];
        self.build(Build::Send(message));
        let var = self.maybe_var();
        self.build(Build::Receive(vec![var]));
        self.build(Build::Transition(0, 31, 0, None, None));
        self.build(Build::Transition(0, 32, 0, None, None));
        self.at_the_edge();
    }

    fn fill_processes(&mut self) {
        let mut tries = 0;
        while self.graph.processes.len() < 4 && tries < 8 && !self.full() {
            let place = self.chance.below(self.graph.locations.len()) as u32;
            self.build(Build::Process(place));
            tries += 1;
        }
        let place = self.maybe_location();
        self.build(Build::Process(place));
        let limits = self.maybe_limits();
        self.build(Build::Initial(limits));
        self.build(Build::Initial(None));
        self.build(Build::Process(0));
        self.at_the_edge();
    }

    /// 128 transitions, many of them equal in their three numbers.
    fn fill_transitions(&mut self) {
        self.build(Build::Action);
        let plain = self.actions_of(0);
        while self.graph.transitions.len() < 128 && !self.full() {
            let action = if self.chance.percent(20) {
                EPSILON
            } else {
                *self.chance.pick(&plain)
            };
            let locations = self.graph.locations.len().min(4);
            let (pre, post) = (
                self.chance.below(locations) as u32,
                self.chance.below(locations) as u32,
            );
            let (guard, limits) = if self.chance.percent(70) {
                (None, None)
            } else {
                (self.guard(), self.some_limits())
            };
            self.build(Build::Transition(pre, action, post, guard, limits));
        }
        self.build(Build::Transition(0, 0, 0, None, None));
        self.build(Build::Auto(0, 0, None, None));
        self.at_the_edge();
        self.start_run();
        for k in [
            0,
            self.chance.from_to(1, 40),
            self.chance.from_to(20, 127),
            127,
            128,
        ] {
            self.say(format!("r list {k}"));
        }
    }

    fn fill_limits(&mut self) {
        for count in [7, 8, 9, 10, 16] {
            for _ in 0..2 {
                let limits = self.limits(count);
                let build = match self.chance.below(4) {
                    0 => Build::Location(Some(limits)),
                    1 => Build::Initial(Some(limits)),
                    2 => Build::Auto(0, 0, None, Some(limits)),
                    _ => Build::Transition(0, 0, 1, None, Some(limits)),
                };
                self.build(build);
            }
        }
        self.at_the_edge();
    }

    fn fill_effects(&mut self) {
        self.build(Build::Action);
        let action = self.graph.actions.len() as u32 - 1;
        for _ in 0..17 {
            let var = self.chance.below(self.graph.vars.len());
            let items = self.typed(self.graph.vars[var].kind(), 3);
            self.build(Build::Effect(action, var as u32, items));
        }
        for _ in 0..4 {
            let (var, items) = (self.maybe_var(), self.maybe_expression());
            self.build(Build::Effect(action, var, items));
        }
        self.build(Build::Transition(0, action, 0, None, None));
    }

    fn fill_resets(&mut self) {
        if self.graph.clocks == 0 {
            self.build(Build::Clock);
        }
        self.build(Build::Action);
        let action = self.graph.actions.len() as u32 - 1;
        for _ in 0..17 {
            let clock = self.chance.below(self.graph.clocks) as u32;
            self.build(Build::Reset(action, clock));
        }
        let clock = self.maybe_clock();
        self.build(Build::Reset(action, clock));
        self.build(Build::Transition(0, action, 1, None, None));
    }

    /// Expressions at the edge of 64 items and 16 operands, as effect, guard and message.
    fn fill_items(&mut self) {
        for _ in 0..self.chance.from_to(8, 16) {
            let kind = if self.chance.percent(60) {
                Kind::Bool
            } else {
                Kind::Int
            };
            let items = if self.chance.percent(50) {
                let length = *self.chance.pick(&[61, 62, 63, 64, 65, 66, 100]);
                self.long(kind, length)
            } else {
                let depth = *self.chance.pick(&[15, 16, 17, 18, 33, 49]);
                self.deep(kind, depth)
            };
            let build = match self.chance.below(4) {
                0 => Build::Effect(self.maybe_action(), self.maybe_var(), items),
                1 => Build::Send(
                    (0..self.chance.from_to(1, 5))
                        .map(|_| items.clone())
                        .collect(),
                ),
                2 => Build::Auto(0, 1, Some(items), None),
                _ => Build::Transition(0, 0, 0, Some(items), None),
            };
            self.build(build);
        }
    }

    /// 64 draws of an action and one more.
    fn fill_draws(&mut self) {
        if self.graph.vars_of(Kind::Bool).is_empty() && !self.build(Build::Var(Val::Bool(false))) {
            return;
        }
        let var = self.graph.vars_of(Kind::Bool)[0];
        if self.full() || !self.build(Build::Action) {
            return;
        }
        let action = self.graph.actions.len() as u32 - 1;
        let counts = *self.chance.pick(&[
            [32, 32, 1, 0],
            [32, 31, 1, 1],
            [30, 30, 5, 4],
            [32, 33, 32, 1],
        ]);
        for draws in counts {
            let items = if draws == 0 {
                vec![Item::Const(Val::Bool(true))]
            } else {
                self.drawing(draws)
            };
            self.build(Build::Effect(action, var, items));
        }
        self.build(Build::Transition(0, action, 0, None, None));
        let lists: [&[usize]; 5] = [
            &[32, 32],
            &[32, 31, 2],
            &[16, 16, 16, 16],
            &[16, 16, 16, 17],
            &[33],
        ];
        let counts = *self.chance.pick(&lists);
        let message = counts.iter().map(|draws| self.drawing(*draws)).collect();
        if self.build(Build::Send(message)) {
            let send = self.graph.actions.len() as u32 - 1;
            self.build(Build::Transition(0, send, 0, None, None));
        }
    }
}
