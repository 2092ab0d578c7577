//! A script about a system: from a seed, and from what the oracle answers while it is made. It begins with `s new`, so scripts
//! can be joined.

use crate::chance::Chance;
use crate::graph::Build;
use crate::maker::{Line, Maker, Teller};
use crate::system_building::SystemMaker;
use crate::system_model::Message;

/// Lines that a script may have while its system is built.
const BUILDING: usize = 600;
/// Lines after that.
const SHORTEST: usize = 80;
const LONGEST: usize = 220;

pub fn system_script(seed: u64, teller: &mut dyn Teller) -> Vec<Line> {
    let mut chance = Chance::new(seed ^ 0x5EED_0F5E_5EED_0F5E);
    let sort = chance.below(32);
    let more = chance.from_to(SHORTEST, LONGEST);
    let mut maker = Maker::bare(chance, teller);
    maker.wanted = BUILDING;
    let mut script = SystemMaker::new(maker);
    if sort >= 30 {
        script.sizes();
    } else if sort >= 27 {
        script.faults();
    } else {
        script.some_system();
    }
    script.maker.wanted = script.maker.lines.len() + more;
    match sort {
        0..=15 => script.ordinary(),
        16..=18 => script.end_of_time(),
        19..=21 => script.spoilt(),
        22..=24 => script.rings(),
        25..=26 => script.growing(),
        _ => script.ordinary(),
    }
    script.maker.lines
}

/// What a script says of its table alone. Lines on the words of a state are left out. Any other line on a state becomes a
/// `s build`, which asks for a well-formed table as it does; several in a row become one.
pub fn building_alone(script: Vec<Line>) -> Vec<Line> {
    let mut lines: Vec<Line> = vec![];
    for line in script {
        if line.starts_with(b"poke t ") || line == b"sum t" {
            continue;
        }
        if !line.starts_with(b"t ") {
            lines.push(line);
        } else if lines.last().is_none_or(|last| last != b"s build") {
            lines.push(b"s build".to_vec());
        }
    }
    lines
}

impl SystemMaker<'_> {
    fn some_system(&mut self) {
        let graphs = *self.maker.chance.pick(&[1, 1, 2, 2, 2, 3, 3, 4, 5, 8]);
        let channels = *self.maker.chance.pick(&[0, 1, 1, 2, 2, 3, 3, 4, 6, 8]);
        self.ordinary_system(graphs, channels);
    }

    fn ordinary(&mut self) {
        if self.maker.chance.percent(10) {
            // Before there is a state.
            self.random_step();
            self.question();
        }
        if self.maker.chance.percent(25) {
            self.start();
            self.set_some_ring();
        }
        let upto = self.maker.wanted;
        while !self.full() {
            self.run_calls(upto);
            if self.places.is_empty() && !self.full() {
                // No state can be had of it: another system.
                self.fresh();
                self.some_system();
            }
        }
    }

    /// The channel whose ring was set.
    fn set_some_ring(&mut self) -> Option<usize> {
        if self.places.is_empty() {
            return None;
        }
        let q = self.some_queue()?;
        self.set_ring(q);
        Some(q)
    }

    /// The time and clocks near the end of 32 bits.
    fn end_of_time(&mut self) {
        while !self.full() {
            self.start();
            let most = u32::MAX - self.maker.chance.below(6) as u32;
            if self.maker.chance.percent(50) && !self.places.is_empty() {
                // The time alone: clocks stay where they are.
                self.maker.say(format!("poke t 0 {most}"));
            } else {
                self.maker.say(format!("t can {most}"));
                self.maker.say(format!("t wait {most}"));
            }
            for _ in 0..self.maker.chance.from_to(4, 14) {
                match self.maker.chance.below(8) {
                    0..=1 => {
                        let delta = self.maker.chance.below(6);
                        self.maker.say(format!("t wait {delta}"));
                    }
                    2 => {
                        self.maker.say("t waiting");
                    }
                    3 => {
                        self.maker.say("t can 1");
                    }
                    _ => self.run_call(),
                }
            }
        }
    }

    fn spoilt(&mut self) {
        while !self.full() {
            if self.places.is_empty() {
                self.start();
            }
            let upto = self.maker.lines.len() + self.maker.chance.from_to(3, 10);
            self.run_calls(upto);
            self.poke_round();
            if !self.full() && self.maker.ask("s build") == "refused 32" {
                self.fresh();
                self.some_system();
            }
        }
    }

    /// Queues whose counts wrap.
    fn rings(&mut self) {
        if self.system.channels.is_empty() {
            self.fresh();
            self.ordinary_system(2, 2);
        }
        while !self.full() {
            if self.places.is_empty() && !self.start() {
                return self.ordinary();
            }
            let Some(q) = self.set_some_ring() else {
                return self.ordinary();
            };
            for _ in 0..self.maker.chance.from_to(3, 8) {
                match self.maker.chance.below(6) {
                    0..=1 => self.go_on(Message::Send, q),
                    2..=3 => self.go_on(Message::Receive, q),
                    4 => {
                        self.maker.say("t show");
                    }
                    _ => self.run_call(),
                }
            }
        }
    }

    /// The system grows while a state of it goes on: then the two may not fit.
    fn growing(&mut self) {
        while !self.full() {
            if self.places.is_empty() {
                self.start();
            }
            let upto = self.maker.lines.len() + self.maker.chance.from_to(6, 16);
            self.run_calls(upto);
            self.addition();
            for _ in 0..self.maker.chance.from_to(1, 4) {
                match self.maker.chance.below(4) {
                    0 => self.question(),
                    1 => {
                        self.maker.say("t wait 1");
                    }
                    2 => self.random_step(),
                    _ => self.near_step(),
                }
            }
            if self.maker.ask("t waiting") == "refused 32" {
                self.start();
            }
        }
    }

    fn addition(&mut self) {
        let graphs = self.system.graphs.len();
        if self.maker.chance.percent(25) {
            self.some_channel();
            return;
        }
        if graphs == 0 || self.maker.chance.percent(15) {
            if self.new_graph() {
                let g = self.system.graphs.len() - 1;
                self.at(g);
                // Without a process for a moment.
                self.question();
                self.build(g, Build::Initial(None));
            }
            return;
        }
        let g = self.maker.chance.below(graphs);
        self.at(g);
        let location = self.maker.maybe_location();
        let build = match self.maker.chance.below(6) {
            0 => Build::Var(self.maker.any_value()),
            1 => Build::Clock,
            2 => Build::Process(location),
            3 => Build::Action,
            4 => Build::Location(None),
            _ => {
                let action = self.maker.maybe_action();
                self.transition(g, location, action)
            }
        };
        self.build(g, build);
    }

    /// A small system and then every fault of the builder.
    fn faults(&mut self) {
        if self.maker.chance.percent(50) {
            // Before there is anything.
            self.fault();
            self.maker.say("s build");
            self.maker.say("t new");
        }
        let graphs = self.maker.chance.from_to(1, 2);
        let channels = self.maker.chance.from_to(1, 3);
        self.ordinary_system(graphs, channels);
        for _ in 0..self.maker.chance.from_to(10, 20) {
            let count = self.maker.chance.from_to(2, 8);
            self.faults_between_sums(count);
        }
        self.maker.say("s build");
    }
}

#[cfg(test)]
mod tests {
    use super::*;

    /// Answers from the line alone.
    struct Fake {
        lines: Vec<Line>,
        until: usize,
    }

    impl Teller for Fake {
        fn ask(&mut self, line: &[u8]) -> Option<String> {
            self.lines.push(line.to_vec());
            if self.lines.len() > self.until {
                return None;
            }
            let hash = line
                .iter()
                .fold(7u64, |h, b| h.wrapping_mul(31).wrapping_add(*b as u64));
            Some(match line {
                b if b.starts_with(b"t pg") && hash % 3 > 0 => "ok 0 0 0".to_string(),
                b if b.starts_with(b"t can") => {
                    if hash % 2 == 0 { "yes" } else { "no" }.to_string()
                }
                b"t new" => "ok".to_string(),
                _ if hash % 7 == 0 => "refused 8".to_string(),
                _ => "ok".to_string(),
            })
        }
    }

    fn fake() -> Fake {
        Fake {
            lines: vec![],
            until: usize::MAX,
        }
    }

    #[test]
    fn a_seed_gives_one_script() {
        for seed in 0..64 {
            let first = system_script(seed, &mut fake());
            assert_eq!(first, system_script(seed, &mut fake()));
            assert_ne!(first, system_script(seed + 1, &mut fake()));
        }
    }

    #[test]
    fn scripts_have_their_beginning_and_an_end() {
        for seed in 0..200 {
            let lines = system_script(seed, &mut fake());
            assert!((SHORTEST..=BUILDING + LONGEST + 1000).contains(&lines.len()));
            assert_eq!(lines[0], b"s new");
            assert!(lines.iter().all(|line| !line.contains(&b'\n')));
        }
    }

    #[test]
    fn a_script_ends_at_the_line_where_nobody_answers() {
        for seed in 0..32 {
            let mut teller = Fake {
                lines: vec![],
                until: 40,
            };
            let lines = system_script(seed, &mut teller);
            assert_eq!(lines.last(), teller.lines.last());
        }
    }

    #[test]
    fn lines_on_a_state_are_left_out_or_become_one_build() {
        let lines = |text: &str| -> Vec<Line> {
            text.split('|')
                .map(|line| line.as_bytes().to_vec())
                .collect()
        };
        let script = "s new|t new|poke t 0 1|t wait 1|sum t|poke s 0 9|t show|s 0 clock|t|sum s";
        let built = "s new|s build|poke s 0 9|s build|s 0 clock|t|sum s";
        assert_eq!(building_alone(lines(script)), lines(built));
    }
}
