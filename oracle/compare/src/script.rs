//! A script: from a seed, and from what the oracle answers while it is made. It begins with `g new`, so scripts can be joined.

use crate::chance::Chance;
use crate::graph::{Build, Item, Val};
use crate::maker::{LONGEST, Line, Maker, SHORTEST, Teller};

pub fn script(seed: u64, teller: &mut dyn Teller) -> Vec<Line> {
    let mut chance = Chance::new(seed);
    let wanted = chance.from_to(SHORTEST, LONGEST);
    let sort = chance.below(32);
    let mut maker = Maker::new(chance, teller);
    // Runs need room; the others vary.
    maker.wanted = if sort < 20 { wanted.max(170) } else { wanted };
    match sort {
        0..=15 => maker.ordinary_script(),
        16..=17 => maker.edge_script(),
        18..=19 => maker.poke_script(),
        20..=22 => maker.addition_script(),
        23..=24 => maker.malformed_script(),
        25..=26 => maker.fault_script(),
        _ => {
            maker.wanted = LONGEST;
            maker.sizes_script();
        }
    }
    maker.fill_up();
    maker.lines
}

impl Maker<'_> {
    fn room(&mut self) -> usize {
        self.chance.from_to(10, 32)
    }

    fn ordinary_script(&mut self) {
        let room = self.room();
        self.ordinary_graph(room);
        if self.chance.percent(10) {
            // Before there is a run.
            self.random_step();
            self.question();
        }
        self.start_run();
        let upto = self.wanted;
        self.run_calls(upto);
    }

    /// Clocks near the end of time.
    fn edge_script(&mut self) {
        let room = self.room();
        self.ordinary_graph(room);
        while !self.full() {
            self.start_run();
            let most = u32::MAX - self.chance.below(6) as u32;
            self.say(format!("r can {most}"));
            self.say(format!("r wait {most}"));
            for _ in 0..self.chance.from_to(4, 14) {
                match self.chance.below(8) {
                    0 => {
                        let delta = self.chance.below(6);
                        self.say(format!("r wait {delta}"));
                    }
                    1 => {
                        self.say("r waiting");
                    }
                    2 => {
                        self.say("r show");
                    }
                    _ => self.run_call(),
                }
            }
        }
    }

    fn poke_script(&mut self) {
        let room = self.room();
        self.ordinary_graph(room);
        while !self.full() {
            self.start_run();
            let upto = self.lines.len() + self.chance.from_to(3, 14);
            self.run_calls(upto);
            if self.chance.percent(90) {
                self.poke_round();
            } else {
                self.poke_edge();
            }
            if self.chance.percent(50) {
                let upto = self.lines.len() + 3;
                self.run_calls(upto);
            }
            self.start_over_if_spoilt();
        }
    }

    /// Nothing but 32 comes back: another graph.
    fn start_over_if_spoilt(&mut self) {
        if !self.full() && self.ask("g build") == "refused 32" {
            self.fresh();
            let room = self.room();
            self.ordinary_graph(room);
        }
    }

    /// The graph grows while a run of it is going on.
    fn addition_script(&mut self) {
        let room = self.room();
        self.ordinary_graph(room);
        while !self.full() {
            self.start_run();
            let upto = self.lines.len() + self.chance.from_to(6, 20);
            self.run_calls(upto);
            for _ in 0..self.chance.from_to(1, 2) {
                let build = self.addition();
                self.build(build);
            }
            for _ in 0..self.chance.from_to(1, 3) {
                match self.chance.below(5) {
                    0 => self.question(),
                    1 => {
                        self.say("r wait 1");
                    }
                    2 => self.random_step(),
                    _ => self.near_step(),
                }
            }
        }
    }

    fn addition(&mut self) -> Build {
        let location = |maker: &mut Self| maker.chance.below(maker.graph.locations.len()) as u32;
        match self.chance.below(12) {
            0 => Build::Var(self.any_value()),
            1 => Build::Clock,
            2 => Build::Process(location(self)),
            3 => Build::Initial(None),
            4 => Build::Action,
            5 => Build::Location(self.some_invariants()),
            6 => Build::Receive(vec![]),
            7..=8 => self.faulty(),
            _ => {
                let (pre, post) = (location(self), location(self));
                let action = self.maybe_action();
                Build::Transition(pre, action, post, self.guard(), self.some_limits())
            }
        }
    }

    fn malformed_script(&mut self) {
        let room = self.room();
        self.ordinary_graph(room);
        self.start_run();
        while !self.full() {
            if self.chance.percent(35) {
                let line = self.malformed();
                let gone = line == b"g new";
                self.say(line);
                if gone || self.ask("g build") == "refused 29" {
                    self.fresh();
                    self.ordinary_graph(12);
                    self.start_run();
                }
            } else {
                self.run_call();
            }
        }
    }

    /// A small graph, then every fault of the builder in any order; some calls before there is a process.
    fn fault_script(&mut self) {
        if self.chance.percent(30) {
            self.say("g build");
            self.say("r new");
            self.random_step();
            self.question();
        }
        for _ in 0..self.chance.from_to(0, 3) {
            let val = self.any_value();
            self.build(Build::Var(val));
        }
        for _ in 0..self.chance.from_to(0, 3) {
            self.build(Build::Clock);
        }
        self.build(Build::Action);
        let send = vec![vec![Item::Const(Val::Bool(true))]];
        self.build(Build::Send(send));
        self.build(Build::Receive(vec![]));
        self.build(Build::Location(None));
        let until = self.wanted * 3 / 4;
        while self.lines.len() < until && !self.full() {
            let count = self.chance.from_to(2, 8);
            self.faults_between_sums(count);
            if self.chance.percent(30) {
                let build = self.all_wrong();
                self.build(build);
            }
            if self.chance.percent(5) {
                self.say("g build");
            }
            if self.chance.percent(30) {
                let line = self.reader_line();
                self.say_call(line);
            }
        }
        self.start_run();
        let upto = self.wanted;
        self.run_calls(upto);
    }

    /// No script is shorter than the shortest.
    fn fill_up(&mut self) {
        while self.lines.len() < SHORTEST.min(self.wanted) && !self.full() {
            if self.places.is_empty() && !self.start_run() {
                let line = if self.chance.percent(50) {
                    self.range_line()
                } else {
                    self.expression_line()
                };
                self.say_call(line);
            } else {
                self.run_call();
            }
        }
    }
}

#[cfg(test)]
mod tests {
    use super::*;

    /// Answers from the line alone.
    struct Fake {
        lines: Vec<Line>,
        until: usize,
    }

    impl Teller for Fake {
        fn ask(&mut self, line: &[u8]) -> Option<String> {
            self.lines.push(line.to_vec());
            if self.lines.len() > self.until {
                return None;
            }
            let hash = line
                .iter()
                .fold(7u64, |h, b| h.wrapping_mul(31).wrapping_add(*b as u64));
            Some(match line {
                b if b.starts_with(b"r list") && hash % 3 > 0 => {
                    format!("ok {} 0 {}", hash % 2, hash % 5)
                }
                b if b.starts_with(b"r can") => {
                    if hash % 2 == 0 { "yes" } else { "no" }.to_string()
                }
                _ if hash % 7 == 0 => "refused 8".to_string(),
                _ => "ok".to_string(),
            })
        }
    }

    fn fake() -> Fake {
        Fake {
            lines: vec![],
            until: usize::MAX,
        }
    }

    #[test]
    fn a_seed_gives_one_script() {
        for seed in 0..64 {
            let first = script(seed, &mut fake());
            assert_eq!(first, script(seed, &mut fake()));
            assert_ne!(first, script(seed + 1, &mut fake()));
        }
    }

    #[test]
    fn scripts_have_their_length_and_beginning() {
        for seed in 0..200 {
            let lines = script(seed, &mut fake());
            assert!(
                (SHORTEST..=LONGEST).contains(&lines.len()),
                "seed {seed}: {} lines",
                lines.len()
            );
            assert_eq!(lines[0], b"g new");
            assert!(lines.iter().all(|line| !line.contains(&b'\n')));
        }
    }

    #[test]
    fn a_script_ends_at_the_line_where_nobody_answers() {
        for seed in 0..32 {
            let mut teller = Fake {
                lines: vec![],
                until: 40,
            };
            let lines = script(seed, &mut teller);
            assert_eq!(lines.last(), teller.lines.last());
        }
    }
}
