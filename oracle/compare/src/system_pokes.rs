//! Words written into a system's table and state past the calls: valid ones, bad ones, and back again. As with graphs, nothing
//! that was unused is brought into use without being written before.

use crate::graph::{Part, Word};
use crate::system_building::SystemMaker;
use crate::system_model::{
    Message, STATE_WORDS, SYSTEM_WORDS, channel_row, entry_word, graph_row, queue_row, queue_slot,
    value_words,
};

impl SystemMaker<'_> {
    fn poke(&mut self, letter: char, place: usize, word: u64) {
        self.maker.say(format!("poke {letter} {place} {word}"));
    }

    /// Writes a word, makes some calls, writes the old one back.
    pub fn poke_round(&mut self) {
        match self.maker.chance.below(10) {
            0..=2 => self.poke_table(),
            3..=4 => self.poke_graph(),
            5..=8 => self.poke_state(),
            _ => self.poke_edge(),
        }
    }

    fn poke_table(&mut self) {
        let words = self.system.own_words();
        let part = *self.maker.chance.pick(&[
            Part::Count,
            Part::Length,
            Part::Number,
            Part::Value,
            Part::Key,
        ]);
        let Some(old) = self.of_part(&words, part) else {
            return;
        };
        let sort = (0..self.system.channels.len()).find(|q| channel_row(*q) + 5 == old.place);
        let word = match (old.part, sort) {
            (Part::Key, _) => self.other_entry(),
            (_, Some(_)) => *self.maker.chance.pick(&[0, 0, 1, 1, 2, 2, 3]),
            (Part::Value, _) => *self
                .maker
                .chance
                .pick(&[0, 1, 2, 3, 63, 64, 65, 66, 1 << 32]),
            _ => self.maker.other_word(old),
        };
        if sort.is_some() && word == 0 && old.word != 0 {
            // The capacity comes into use.
            let capacity = self.maker.chance.from_to(0, 12) as u64;
            self.poke('s', old.place + 1, capacity);
        }
        self.round('s', old, word);
    }

    /// Another kind or channel for an action.
    fn other_entry(&mut self) -> u64 {
        let q = self.maker.chance.below(self.system.channels.len() + 1);
        let kind = *self.maker.chance.pick(&[
            Message::Send,
            Message::Receive,
            Message::Empty,
            Message::Empty,
            Message::Full,
            Message::Full,
        ]);
        match self.maker.chance.below(6) {
            0 => 0,
            1 => *self
                .maker
                .chance
                .pick(&[5, 256, 255, u64::MAX, 1 + (1 << 40)]),
            _ => entry_word(Some((kind, q))),
        }
    }

    fn poke_graph(&mut self) {
        if self.system.graphs.is_empty() {
            return;
        }
        let g = self.maker.chance.below(self.system.graphs.len());
        self.at(g);
        let words = self.system.graph_words(g);
        let part = *self.maker.chance.pick(&[
            Part::Count,
            Part::Length,
            Part::Number,
            Part::Value,
            Part::Key,
            Part::Bound,
            Part::Item,
        ]);
        if let Some(old) = self.of_part(&words, part) {
            let word = self.maker.other_word(old);
            self.round('s', old, word);
        }
    }

    fn poke_state(&mut self) {
        let Some(state) = self.state() else {
            return;
        };
        let words = state.words();
        let part = *self.maker.chance.pick(&[
            Part::Count,
            Part::Number,
            Part::Value,
            Part::Key,
            Part::Key,
        ]);
        let Some(old) = self.of_part(&words, part) else {
            return;
        };
        let word = match old.part {
            // A ring's count.
            Part::Key => {
                let near = self.maker.chance.from_to(0, 9) as u64;
                match self.maker.chance.below(6) {
                    0 => self.maker.garbage(),
                    1 => old.word + 64,
                    2 => 1 << 32,
                    _ => (old.word + near).saturating_sub(4),
                }
            }
            _ => self.maker.other_word(old),
        };
        self.round('t', old, word);
    }

    fn of_part(&mut self, words: &[Word], part: Part) -> Option<Word> {
        let of_part: Vec<Word> = words.iter().copied().filter(|w| w.part == part).collect();
        match of_part.as_slice() {
            [] => words.first().copied(),
            some => Some(*self.maker.chance.pick(some)),
        }
    }

    /// The changed word, calls that change nothing of what is known, and the old word.
    fn round(&mut self, letter: char, old: Word, word: u64) {
        let sums = self.maker.chance.percent(30);
        if sums {
            self.maker.say(format!("sum {letter}"));
        }
        self.poke(letter, old.place, word);
        // A badly formed table refuses every call, also those that build.
        let refused = letter == 's' && self.maker.ask("s build") == "refused 32";
        for _ in 0..self.maker.chance.from_to(1, 4) {
            match refused && self.maker.chance.percent(50) {
                true => self.building_line(),
                false => self.poked_call(),
            }
        }
        self.poke(letter, old.place, old.word);
        if sums {
            self.maker.say(format!("sum {letter}"));
        }
        // What was accepted meanwhile moved the state.
        self.resume();
    }

    fn poked_call(&mut self) {
        match self.maker.chance.below(12) {
            0 => {
                self.maker.say("s build");
            }
            1 => {
                let q = self.maker.chance.below(self.system.channels.len() + 1);
                self.maker.say(format!("s capacity {q}"));
            }
            2 => {
                let g = self.maker.chance.below(self.system.graphs.len() + 1);
                self.maker.say(format!("s {g} reset e 99"));
            }
            3..=4 => {
                self.maker.say("t waiting");
            }
            5 => {
                self.maker.say("t wait 1");
            }
            6..=7 => self.question(),
            8 => self.random_step(),
            9 => self.near_step(),
            _ => self.guided_step(),
        }
    }

    /// Places and rings are what the state says now; a fresh state where it says nothing any more.
    fn resume(&mut self) {
        if self.full() {
            return;
        }
        match self.state() {
            Some(state) if state.runs.len() == self.system.graphs.len() => {
                self.places = state.runs.into_iter().map(|run| run.places).collect();
            }
            _ => {
                self.start();
            }
        }
    }

    /// Places at the end of the words and out of them.
    fn poke_edge(&mut self) {
        let word = self.maker.garbage();
        let (letter, place) = *self.maker.chance.pick(&[
            ('s', SYSTEM_WORDS),
            ('s', SYSTEM_WORDS + 1),
            ('t', STATE_WORDS),
            ('t', 46_890),
            ('s', u32::MAX as usize),
        ]);
        self.poke(letter, place, word);
        // The last words are used by no small system.
        if self.system.graphs.len() < 8 {
            self.poke('s', graph_row(8) - 1, word);
        }
        if self.system.channels.len() < 8 {
            self.poke('t', queue_row(8) - 1, word);
        }
    }

    /// Messages in a ring whose counts stand near the end of 32 bits.
    pub fn set_ring(&mut self, q: usize) {
        let channel = self.system.channels[q].clone();
        let width = channel.kinds.len();
        let most = channel.most().min(ROOM_TO_FILL / width.max(1));
        let messages = self.maker.chance.below(most + 1);
        let read = match self.maker.chance.below(4) {
            0 => self.maker.chance.word() as u32,
            _ => 0u32.wrapping_sub(self.maker.chance.below(9) as u32),
        };
        let mut count = read;
        for _ in 0..messages {
            for kind in &channel.kinds {
                let val = self.maker.value(*kind);
                for word in value_words(queue_slot(q, count), val) {
                    self.poke('t', word.place, word.word);
                }
                count = count.wrapping_add(1);
            }
        }
        self.poke('t', queue_row(q), read as u64);
        self.poke('t', queue_row(q) + 1, count as u64);
        self.rings[q] = (read, count);
    }
}

/// Values that are poked into a queue at most.
const ROOM_TO_FILL: usize = 12;
