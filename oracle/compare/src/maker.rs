//! A script in the making. Each line is put to a program that answers (the oracle) as soon as it is chosen, so the next one can
//! follow the answers. Questions that change nothing may be asked without becoming part of the script: else a script would
//! be mostly listing.

use std::collections::BTreeMap;

use crate::chance::Chance;
use crate::graph::{Build, EPSILON, Graph};

/// Answers a line, or nothing where the program has ended.
pub trait Teller {
    fn ask(&mut self, line: &[u8]) -> Option<String>;
}

pub type Line = Vec<u8>;

pub const SHORTEST: usize = 60;
pub const LONGEST: usize = 250;

pub struct Maker<'a> {
    pub chance: Chance,
    pub lines: Vec<Line>,
    pub graph: Graph,
    /// The places of the run's processes, by the accepted steps; empty before `r new`.
    pub places: Vec<u32>,
    /// How often a guided step was chosen.
    pub chosen: BTreeMap<(u32, Vec<u32>), usize>,
    /// How many lines the script is to have.
    pub wanted: usize,
    teller: &'a mut dyn Teller,
    silent: bool,
}

impl<'a> Maker<'a> {
    pub fn new(chance: Chance, teller: &'a mut dyn Teller) -> Self {
        let mut maker = Maker::bare(chance, teller);
        maker.fresh();
        maker
    }

    /// Without a first line.
    pub fn bare(chance: Chance, teller: &'a mut dyn Teller) -> Self {
        Maker {
            chance,
            lines: vec![],
            graph: Graph::default(),
            places: vec![],
            chosen: BTreeMap::new(),
            wanted: LONGEST,
            teller,
            silent: false,
        }
    }

    /// No more lines are wanted, or nobody answers any more.
    pub fn full(&self) -> bool {
        self.silent || self.lines.len() >= self.wanted
    }

    /// Puts a line into the script, unless it is full; the answer, empty where there is none.
    pub fn say(&mut self, line: impl Into<Line>) -> String {
        if self.full() {
            return String::new();
        }
        let line = line.into();
        self.lines.push(line.clone());
        self.answer(&line).unwrap_or_default()
    }

    /// Asks without putting the line into the script. Only for lines that change nothing.
    pub fn ask(&mut self, line: &str) -> String {
        if self.silent {
            return String::new();
        }
        match self.answer(line.as_bytes()) {
            Some(answer) => answer,
            None => {
                // The program ended at this line: it belongs to what shows that.
                self.lines.push(line.as_bytes().to_vec());
                String::new()
            }
        }
    }

    fn answer(&mut self, line: &[u8]) -> Option<String> {
        let answer = self.teller.ask(line);
        self.silent |= answer.is_none();
        answer
    }

    /// Says a valid line, now and then with zeros before one of its numbers.
    pub fn say_call(&mut self, line: String) -> String {
        let line = if self.chance.percent(3) {
            self.padded(&line)
        } else {
            line
        };
        self.say(line)
    }

    pub fn build(&mut self, build: Build) -> bool {
        let ok = self.say_call(build.text()).starts_with("ok");
        if ok {
            self.graph.apply(&build);
        }
        ok
    }

    pub fn fresh(&mut self) {
        self.say("g new");
        self.graph = Graph::default();
        self.places = vec![];
        self.chosen.clear();
    }

    pub fn start_run(&mut self) -> bool {
        if !self.places.is_empty() && self.chance.percent(40) {
            // What the run came to.
            self.say("r show");
        }
        let ok = self.say("r new") == "ok";
        self.places = if ok {
            self.graph.processes.clone()
        } else {
            vec![]
        };
        ok
    }

    fn padded(&mut self, line: &str) -> String {
        let mut tokens: Vec<String> = line.split(' ').map(str::to_string).collect();
        let at = self.chance.below(tokens.len());
        let token = &tokens[at];
        let head = token.trim_end_matches(|c: char| c.is_ascii_digit());
        let digits = token.len() - head.len();
        let number =
            ["", "=", "!", "#", "#-", "v", "i", "i-"].contains(&head) && digits > 0 && digits < 10;
        if number {
            let zeros = self.chance.from_to(1, 10 - digits);
            tokens[at] = format!("{head}{}{}", "0".repeat(zeros), &token[head.len()..]);
        } else if token == "e" {
            tokens[at] = EPSILON.to_string();
        }
        tokens.join(" ")
    }
}
