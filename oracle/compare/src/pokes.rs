//! Words written into the graph's table past the builder: valid ones, bad ones, and back again.
//!
//! A count or length is only raised within its size when the words that it brings into use are written before: what stands in unused
//! words is a matter of history, and no rule says it.

use crate::graph::{EPSILON, Item, OPS, Part, Val, WORDS, Word, key};
use crate::maker::Maker;

impl Maker<'_> {
    pub fn poke(&mut self, place: usize, word: u64) {
        self.say(format!("poke g {place} {word}"));
    }

    /// Writes a word, makes some calls, writes the old one back.
    pub fn poke_round(&mut self) {
        if self.chance.percent(20) {
            return self.poke_row();
        }
        let words = self.graph.words();
        // Regions differ much in size: first a sort of word, then one of that sort.
        let part = *self.chance.pick(&[
            Part::Count,
            Part::Length,
            Part::Number,
            Part::Value,
            Part::Key,
            Part::Bound,
            Part::Item,
        ]);
        let of_part: Vec<Word> = words.iter().copied().filter(|w| w.part == part).collect();
        let old = if of_part.is_empty() {
            words[self.chance.below(6)]
        } else {
            *self.chance.pick(&of_part)
        };
        let sums = self.chance.percent(30);
        if sums {
            self.say("sum g");
        }
        let word = self.other_word(old);
        self.poke(old.place, word);
        self.poked_calls(matches!(old.part, Part::Count | Part::Length));
        self.poke(old.place, old.word);
        if sums {
            self.say("sum g");
        }
    }

    /// Another word for a place: mostly one of its sort.
    pub fn other_word(&mut self, old: Word) -> u64 {
        match old.part {
            Part::Count | Part::Length => match self.chance.below(4) {
                // Lower, or over every size.
                0..=1 if old.word > 0 => self.chance.below(old.word as usize) as u64,
                2 => *self.chance.pick(&[129, 200, 1 << 32, u64::MAX]),
                _ => old.word | 1 << 40,
            },
            _ if self.chance.percent(20) => self.garbage(),
            Part::Number => *self.chance.pick(&[0, 1, 2, 3, old.word + 1, 8, 16, 32]),
            Part::Value => *self.chance.pick(&[0, 1, 2, 7, 0xFFFF_FFFF, 1 << 32]),
            Part::Key => self.other_key(old.word),
            Part::Bound => *self.chance.pick(&[
                0,
                1,
                2,
                3,
                4,
                5,
                6,
                21,
                22,
                41,
                4 * 0xFFFF_FFFF + 1,
                4 * 0xFFFF_FFFF + 3,
                1 << 34,
            ]),
            Part::Item => self.other_item(),
        }
    }

    pub fn garbage(&mut self) -> u64 {
        match self.chance.below(4) {
            0 => u64::MAX,
            1 => 1 << self.chance.below(64),
            2 => self.chance.below(300) as u64,
            _ => self.chance.word(),
        }
    }

    /// Another post, action or pre-location: it may break the order.
    fn other_key(&mut self, old: u64) -> u64 {
        let (pre, action, post) = ((old >> 37) as u32, (old >> 5) as u32, (old & 31) as u32);
        match self.chance.below(5) {
            0..=1 => key(pre, action, self.maybe_location() & 31),
            2 => key(pre, self.maybe_action(), post),
            3 => key(self.maybe_location(), action, post),
            _ => key(pre, if action == EPSILON { 0 } else { EPSILON }, post),
        }
    }

    fn other_item(&mut self) -> u64 {
        match self.chance.below(6) {
            0 => Item::Const(Val::Bool(self.chance.percent(50))).word(),
            1 => Item::Const(Val::Int(self.integer())).word(),
            2 => Item::Var(self.maybe_var()).word(),
            3 => self.operation(&OPS).word(),
            4 => self.operation(&OPS).word() | 1 << 8,
            _ => *self
                .chance
                .pick(&[0, 14 | 2 << 8, 15 | 1 << 40, 16 | 99 << 8, 17, 255]),
        }
    }

    /// Calls while a word is changed. A table that is badly formed refuses all of them; on another one builder lines are left
    /// out after a change of a count, since what they write then depends on what the old rows held.
    fn poked_calls(&mut self, counted: bool) {
        let refused = self.ask("g build") == "refused 32";
        let before = (self.graph.clone(), self.places.clone());
        for _ in 0..self.chance.from_to(1, 5) {
            match self.chance.below(11) {
                0 if refused || !counted => {
                    let build = self.all_wrong();
                    self.build(build);
                }
                1..=2 if refused => {
                    let build = self.faulty();
                    self.build(build);
                }
                3 => {
                    self.say("g build");
                }
                4 => {
                    self.start_run();
                    self.places = before.1.clone();
                }
                5 => self.question(),
                6 => self.random_step(),
                7 => self.near_step(),
                8 => {
                    let delta = self.odd_time();
                    self.say(format!("r wait {delta}"));
                }
                9 => {
                    let line = self.reader_line();
                    self.say(line);
                }
                _ => self.guided_step(),
            }
        }
        if self.places.is_empty() {
            self.places = before.1;
        }
        self.graph = before.0;
    }

    /// A new row by words alone: first its words, then its count.
    fn poke_row(&mut self) {
        let g = &self.graph;
        let (vars, clocks, locations, actions, processes) = (
            g.vars.len(),
            g.clocks,
            g.locations.len(),
            g.actions.len(),
            g.processes.len(),
        );
        let transitions = g.transitions.len();
        let row: Vec<(usize, u64)> = match self.chance.below(6) {
            0 if vars < 16 => vec![(6 + vars, 1), (22 + vars, 5), (0, vars as u64 + 1)],
            1 if clocks < 8 => vec![(1, clocks as u64 + 1)],
            2 if locations < 32 => vec![(42 + locations, 0), (2, locations as u64 + 1)],
            3 if actions < 32 => {
                let at = 74 + 51 * actions;
                let kind = self.chance.below(4) as u64;
                vec![
                    (at, kind),
                    (at + 1, 0),
                    (at + 2, 0),
                    (3, actions as u64 + 1),
                ]
            }
            4 if processes < 4 => {
                let place = self.maybe_location() as u64;
                vec![(38 + processes, place), (4, processes as u64 + 1)]
            }
            5 if transitions < 128 && locations > 0 => {
                let at = 1706 + 3 * transitions;
                let new = key(
                    locations as u32 - 1,
                    EPSILON,
                    self.chance.below(locations) as u32,
                );
                vec![
                    (at, new),
                    (at + 1, 0),
                    (at + 2, 0),
                    (5, transitions as u64 + 1),
                ]
            }
            _ => vec![(0, 17)],
        };
        for (place, word) in &row {
            self.poke(*place, *word);
        }
        self.poked_calls(true);
        let (count, _) = row[row.len() - 1];
        let old = self
            .graph
            .words()
            .into_iter()
            .find(|w| w.place == count)
            .map_or(0, |w| w.word);
        self.poke(count, old);
    }

    /// Places at the end of the table and out of it.
    pub fn poke_edge(&mut self) {
        let place = *self
            .chance
            .pick(&[WORDS - 1, WORDS, WORDS + 1, 65536, u32::MAX as usize]);
        let word = self.garbage();
        self.poke(place, word);
    }
}
