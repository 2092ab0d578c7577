//! What the generator knows of the system that it has built and of its state, and the words that they have (the oracle's
//! README, Words of a system), which `poke` lines need.

use crate::graph::{Graph, Kind, Part, Val, Word};

pub const SYSTEM_WORDS: usize = 375_434;
pub const STATE_WORDS: usize = 1417;
/// Values that a queue has room for.
pub const ROOM: usize = 64;

const CHANNEL_ROWS: usize = 2;
const CHANNEL_WIDTH: usize = 7;
const HEAD: usize = 58;
const COMMUNICATIONS: usize = 32;
const GRAPH_WIDTH: usize = 46_922;
const RUN_WIDTH: usize = 47;
const QUEUES: usize = 377;
const QUEUE_WIDTH: usize = 130;

#[derive(Clone, Copy, PartialEq, Eq, Debug)]
pub enum Capacity {
    Bounded(u32),
    Unbounded,
    Sink,
}

impl Capacity {
    pub fn text(self) -> String {
        match self {
            Capacity::Bounded(most) => format!("q{most}"),
            Capacity::Unbounded => "q*".to_string(),
            Capacity::Sink => "sink".to_string(),
        }
    }
}

#[derive(Clone, PartialEq, Eq, Debug)]
pub struct Channel {
    pub kinds: Vec<Kind>,
    pub capacity: Capacity,
}

impl Channel {
    pub fn text(&self) -> String {
        let letter = |kind: &Kind| if *kind == Kind::Bool { 'b' } else { 'i' };
        let mut kinds: String = self.kinds.iter().map(letter).collect();
        if kinds.is_empty() {
            kinds.push('-');
        }
        format!("s channel {kinds} {}", self.capacity.text())
    }

    /// The most whole messages that it can hold.
    pub fn most(&self) -> usize {
        match (self.kinds.len(), self.capacity) {
            (0, _) | (_, Capacity::Sink) => 0,
            (width, Capacity::Unbounded) => ROOM / width,
            (width, Capacity::Bounded(capacity)) => (capacity as usize).div_ceil(width),
        }
    }
}

#[derive(Clone, Copy, PartialEq, Eq, Debug)]
pub enum Message {
    Send,
    Receive,
    Empty,
    Full,
}

impl Message {
    pub fn name(self) -> &'static str {
        match self {
            Message::Send => "send",
            Message::Receive => "receive",
            Message::Empty => "empty",
            Message::Full => "full",
        }
    }
}

pub type Entry = Option<(Message, usize)>;

#[derive(Clone, Default, PartialEq, Eq, Debug)]
pub struct System {
    pub graphs: Vec<Graph>,
    /// Of each graph, an entry for each action.
    pub entries: Vec<Vec<Entry>>,
    pub channels: Vec<Channel>,
}

pub fn channel_row(q: usize) -> usize {
    CHANNEL_ROWS + CHANNEL_WIDTH * q
}

/// Where a graph's communication words begin.
pub fn graph_row(g: usize) -> usize {
    HEAD + GRAPH_WIDTH * g
}

/// Where the read count of a queue stands; the write count comes next.
pub fn queue_row(q: usize) -> usize {
    QUEUES + QUEUE_WIDTH * q
}

/// Where the kind of the value of a count stands; the payload comes next.
pub fn queue_slot(q: usize, count: u32) -> usize {
    queue_row(q) + 2 + 2 * (count as usize % ROOM)
}

impl System {
    pub fn entry(&self, graph: usize, action: u32) -> Entry {
        *self.entries.get(graph)?.get(action as usize)?
    }

    /// The actions of a graph that are such communications on a channel.
    pub fn actions(&self, graph: usize, wanted: (Message, usize)) -> Vec<u32> {
        (0..self.entries[graph].len() as u32)
            .filter(|action| self.entry(graph, *action) == Some(wanted))
            .collect()
    }

    /// The used words of the table's own part and of the communications.
    pub fn own_words(&self) -> Vec<Word> {
        let mut list = vec![
            word(0, self.graphs.len() as u64, Part::Count),
            word(1, self.channels.len() as u64, Part::Count),
        ];
        for (q, channel) in self.channels.iter().enumerate() {
            let row = channel_row(q);
            list.push(word(row, channel.kinds.len() as u64, Part::Length));
            for (i, kind) in channel.kinds.iter().enumerate() {
                list.push(word(row + 1 + i, (*kind == Kind::Int) as u64, Part::Number));
            }
            let (sort, capacity) = match channel.capacity {
                Capacity::Bounded(capacity) => (0, Some(capacity)),
                Capacity::Unbounded => (1, None),
                Capacity::Sink => (2, None),
            };
            list.push(word(row + 5, sort, Part::Number));
            list.extend(capacity.map(|capacity| word(row + 6, capacity as u64, Part::Value)));
        }
        for (g, entries) in self.entries.iter().enumerate() {
            for (a, entry) in entries.iter().enumerate() {
                list.push(word(graph_row(g) + a, entry_word(*entry), Part::Key));
            }
        }
        list
    }

    /// The used words of a graph.
    pub fn graph_words(&self, g: usize) -> Vec<Word> {
        let start = graph_row(g) + COMMUNICATIONS;
        let mut list = self.graphs[g].words();
        for word in &mut list {
            word.place += start;
        }
        list
    }
}

pub fn entry_word(entry: Entry) -> u64 {
    entry.map_or(0, |(message, channel)| {
        let kind = match message {
            Message::Send => 1,
            Message::Receive => 2,
            Message::Empty => 3,
            Message::Full => 4,
        };
        kind + 256 * channel as u64
    })
}

fn word(place: usize, word: u64, part: Part) -> Word {
    Word { place, word, part }
}

#[derive(Clone, PartialEq, Eq, Debug, Default)]
pub struct Run {
    pub places: Vec<u32>,
    pub vars: Vec<Val>,
    pub clocks: Vec<u32>,
}

/// A state as `t show` writes it, with the counts of the rings, which no answer shows.
#[derive(Clone, PartialEq, Eq, Debug)]
pub struct State {
    pub time: u32,
    pub runs: Vec<Run>,
    pub queues: Vec<Vec<Val>>,
    pub rings: Vec<(u32, u32)>,
}

impl State {
    pub fn read(shown: &str, rings: &[(u32, u32)]) -> Option<Self> {
        let mut parts = shown.split(" | ");
        let time = parts.next()?.strip_prefix("time ")?.parse().ok()?;
        let (mut runs, mut queues) = (vec![], vec![]);
        for part in parts {
            match part.strip_prefix("queue") {
                Some(rest) => queues.push(values(rest)?),
                None => runs.push(run(part)?),
            }
        }
        Some(State {
            time,
            runs,
            queues,
            rings: rings.to_vec(),
        })
    }

    /// The used words.
    pub fn words(&self) -> Vec<Word> {
        let mut list = vec![word(0, self.time as u64, Part::Value)];
        for (g, run) in self.runs.iter().enumerate() {
            let at = 1 + RUN_WIDTH * g;
            let counts = [run.places.len(), run.vars.len(), run.clocks.len()];
            for (i, count) in counts.into_iter().enumerate() {
                list.push(word(at + i, count as u64, Part::Count));
            }
            for (p, place) in run.places.iter().enumerate() {
                list.push(word(at + 3 + p, *place as u64, Part::Number));
            }
            for (v, val) in run.vars.iter().enumerate() {
                list.extend(value_words(at + 7 + 2 * v, *val));
            }
            for (c, clock) in run.clocks.iter().enumerate() {
                list.push(word(at + 39 + c, *clock as u64, Part::Value));
            }
        }
        for (q, queue) in self.queues.iter().enumerate() {
            let (read, write) = self.rings[q];
            list.push(word(queue_row(q), read as u64, Part::Key));
            list.push(word(queue_row(q) + 1, write as u64, Part::Key));
            for (i, val) in (0..).zip(queue) {
                list.extend(value_words(queue_slot(q, read.wrapping_add(i)), *val));
            }
        }
        list
    }
}

pub fn value_words(at: usize, val: Val) -> [Word; 2] {
    let kind = (val.kind() == Kind::Int) as u64;
    [
        word(at, kind, Part::Number),
        word(at + 1, val.word(), Part::Value),
    ]
}

fn run(text: &str) -> Option<Run> {
    let rest = text.strip_prefix("places")?;
    let (places, rest) = rest.split_once(" vars")?;
    let (vars, clocks) = rest.split_once(" clocks")?;
    Some(Run {
        places: numbers(places)?,
        vars: values(vars)?,
        clocks: numbers(clocks)?,
    })
}

fn numbers(text: &str) -> Option<Vec<u32>> {
    text.split_whitespace().map(|n| n.parse().ok()).collect()
}

pub fn values(text: &str) -> Option<Vec<Val>> {
    text.split_whitespace()
        .map(|token| match token {
            "b0" => Some(Val::Bool(false)),
            "b1" => Some(Val::Bool(true)),
            _ => token.strip_prefix('i')?.parse().ok().map(Val::Int),
        })
        .collect()
}

#[cfg(test)]
mod tests {
    use super::*;

    #[test]
    fn sizes_follow_from_the_rows() {
        assert_eq!(graph_row(8), SYSTEM_WORDS);
        assert_eq!(channel_row(8), HEAD);
        assert_eq!(queue_row(8), STATE_WORDS);
        assert_eq!(1 + 8 * RUN_WIDTH, QUEUES);
    }

    #[test]
    fn a_shown_state_is_read() {
        let text =
            "time 3 | places 1 vars i-2 b1 clocks 0 7 | places 0 vars clocks | queue | queue b0 i5";
        let state = State::read(text, &[(0, 0), (u32::MAX, 1)]).unwrap();
        assert_eq!(state.runs[0].clocks, [0, 7]);
        assert_eq!(state.queues[1], [Val::Bool(false), Val::Int(5)]);
        let words = state.words();
        let at = |place: usize| words.iter().find(|w| w.place == place).map(|w| w.word);
        assert_eq!(at(0), Some(3));
        assert_eq!(
            (at(1), at(2), at(3), at(4)),
            (Some(1), Some(2), Some(2), Some(1))
        );
        assert_eq!((at(8), at(9)), (Some(1), Some(0xFFFF_FFFE)));
        assert_eq!(at(41), Some(7));
        // The second queue's first value stands in the last slot, its second in the first.
        assert_eq!((at(507), at(508)), (Some(0xFFFF_FFFF), Some(1)));
        assert_eq!((at(507 + 128), at(507 + 2)), (Some(0), Some(1)));
    }
}
