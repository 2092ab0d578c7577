//! The words of a system's table and of its state (README.md, Words of a system): reading what they say, and writing.

use crate::call::Building;
use crate::expression;
use crate::running::Run;
use crate::system_call::SystemBuilding;
use crate::table::{self, Action, Graph, MOST_VALUES, Table};
use scan_core::{Type, Val};

pub const MOST_GRAPHS: usize = 8;
pub const MOST_CHANNELS: usize = 8;
/// Values that a queue has room for.
pub const ROOM: usize = 64;

const GRAPHS: usize = 0;
const CHANNELS: usize = 1;
const CHANNEL_ROWS: usize = 2;
const CHANNEL_WIDTH: usize = 7;
const HEAD: usize = CHANNEL_ROWS + CHANNEL_WIDTH * MOST_CHANNELS;
const COMMUNICATIONS: usize = 32;
const GRAPH_WIDTH: usize = COMMUNICATIONS + table::WORDS;
pub const SYSTEM_WORDS: usize = HEAD + GRAPH_WIDTH * MOST_GRAPHS;

const RUNS: usize = 1;
const RUN_WIDTH: usize = 47;
const PLACES: usize = 3;
const VALUES: usize = 7;
const CLOCKS: usize = 39;
const QUEUES: usize = RUNS + RUN_WIDTH * MOST_GRAPHS;
const QUEUE_WIDTH: usize = 2 + 2 * ROOM;
pub const STATE_WORDS: usize = QUEUES + QUEUE_WIDTH * MOST_CHANNELS;

#[derive(Debug, Clone, Copy, PartialEq, Eq)]
pub enum Capacity {
    Bounded(u32),
    Unbounded,
    Sink,
}

#[derive(Debug, Clone, Copy, PartialEq, Eq)]
pub enum Kind {
    Send,
    Receive,
    Empty,
    Full,
}

const KINDS: [Kind; 4] = [Kind::Send, Kind::Receive, Kind::Empty, Kind::Full];

impl Kind {
    pub fn name(self) -> &'static str {
        match self {
            Kind::Send => "send",
            Kind::Receive => "receive",
            Kind::Empty => "empty",
            Kind::Full => "full",
        }
    }

    /// 1 to 4: 0 is none.
    fn word(self) -> u64 {
        match self {
            Kind::Send => 1,
            Kind::Receive => 2,
            Kind::Empty => 3,
            Kind::Full => 4,
        }
    }
}

#[derive(Debug, Clone, PartialEq, Eq)]
pub struct Channel {
    pub kinds: Vec<Type>,
    pub capacity: Capacity,
}

impl Channel {
    pub fn width(&self) -> usize {
        self.kinds.len()
    }

    /// The most values that can be stored.
    pub fn ceiling(&self) -> u64 {
        let width = self.width() as u64;
        match self.capacity {
            Capacity::Sink => 0,
            _ if width == 0 => 0,
            Capacity::Unbounded => ROOM as u64,
            Capacity::Bounded(capacity) => width * u64::from(capacity).div_ceil(width),
        }
    }

    pub fn too_large(&self) -> bool {
        self.width() >= 1 && self.ceiling() > ROOM as u64
    }
}

#[derive(Debug, Clone, Copy, PartialEq, Eq)]
pub struct Communication {
    pub kind: Kind,
    pub channel: usize,
}

impl Communication {
    fn word(self) -> u64 {
        self.kind.word() + 256 * self.channel as u64
    }

    fn of_word(word: u64) -> Option<Self> {
        let kind = KINDS.into_iter().find(|kind| kind.word() == word % 256)?;
        Some(Communication {
            kind,
            channel: usize::try_from(word / 256).ok()?,
        })
    }
}

#[derive(Debug, Clone, PartialEq, Eq)]
pub struct Member {
    pub graph: Graph,
    /// An entry for each action.
    pub communications: Vec<Option<Communication>>,
}

/// What the used words of a table say.
#[derive(Debug, Clone, PartialEq, Eq, Default)]
pub struct System {
    pub members: Vec<Member>,
    pub channels: Vec<Channel>,
}

impl System {
    /// Outside building every graph has a process.
    pub fn runs(&self) -> bool {
        let mut members = self.members.iter();
        members.all(|member| !member.graph.processes.is_empty())
    }
}

fn holds(test: bool) -> Option<()> {
    test.then_some(())
}

fn kind_of(word: u64) -> Option<Type> {
    match word {
        0 => Some(Type::Boolean),
        1 => Some(Type::Integer),
        _ => None,
    }
}

fn kind_word(kind: Type) -> u64 {
    match kind {
        Type::Boolean => 0,
        Type::Integer => 1,
    }
}

fn value_of(kind: u64, payload: u64) -> Option<Val> {
    match kind_of(kind)? {
        Type::Boolean => (payload < 2).then_some(Val::Boolean(payload == 1)),
        Type::Integer => {
            let bits = u32::try_from(payload).ok()?;
            Some(Val::Integer(bits.cast_signed()))
        }
    }
}

fn value_words(val: Val) -> [u64; 2] {
    match val {
        Val::Boolean(b) => [0, u64::from(b)],
        Val::Integer(i) => [1, u64::from(i.cast_unsigned())],
    }
}

fn weighted(words: &[u64], start: usize) -> u64 {
    (start as u64 + 1..)
        .zip(words)
        .fold(0, |sum: u64, (place, word)| {
            sum.wrapping_add(word.wrapping_mul(place))
        })
}

/// The table's words; each graph's own are kept apart, as the graph layer keeps them.
pub struct SystemTable {
    head: [u64; HEAD],
    communications: [[u64; COMMUNICATIONS]; MOST_GRAPHS],
    graphs: Vec<Table>,
}

impl Default for SystemTable {
    fn default() -> Self {
        SystemTable {
            head: [0; HEAD],
            communications: [[0; COMMUNICATIONS]; MOST_GRAPHS],
            graphs: (0..MOST_GRAPHS).map(|_| Table::default()).collect(),
        }
    }
}

impl SystemTable {
    pub fn poke(&mut self, place: usize, word: u64) {
        let Some(place) = place.checked_sub(HEAD) else {
            self.head[place] = word;
            return;
        };
        let (graph, place) = (place / GRAPH_WIDTH, place % GRAPH_WIDTH);
        match place.checked_sub(COMMUNICATIONS) {
            None => self.communications[graph][place] = word,
            Some(place) => self.graphs[graph].poke(place, word),
        }
    }

    /// The words of graph g alone.
    pub fn graph_words(&self, g: usize) -> &[u64] {
        self.graphs[g].words()
    }

    pub fn sum(&self) -> u64 {
        let mut sum = weighted(&self.head, 0);
        for (g, graph) in self.graphs.iter().enumerate() {
            let start = HEAD + GRAPH_WIDTH * g;
            sum = sum
                .wrapping_add(weighted(&self.communications[g], start))
                .wrapping_add(weighted(graph.words(), start + COMMUNICATIONS));
        }
        sum
    }

    /// The system, if the table is well formed as one that is being built: a graph may lack a process.
    pub fn system(&self) -> Option<System> {
        let (graphs, channels) = (self.head[GRAPHS], self.head[CHANNELS]);
        holds(graphs <= MOST_GRAPHS as u64 && channels <= MOST_CHANNELS as u64)?;
        let channels: Vec<Channel> = (0..channels as usize)
            .map(|q| self.channel(q))
            .collect::<Option<_>>()?;
        let members = (0..graphs as usize)
            .map(|g| self.member(g, &channels))
            .collect::<Option<_>>()?;
        Some(System { members, channels })
    }

    fn channel(&self, q: usize) -> Option<Channel> {
        let row = &self.head[CHANNEL_ROWS + CHANNEL_WIDTH * q..][..CHANNEL_WIDTH];
        let width = row[0];
        holds(width <= MOST_VALUES as u64)?;
        let kinds = row[1..=width as usize]
            .iter()
            .map(|&word| kind_of(word))
            .collect::<Option<_>>()?;
        let capacity = match row[5] {
            0 => Capacity::Bounded(u32::try_from(row[6]).ok()?),
            1 => Capacity::Unbounded,
            2 => Capacity::Sink,
            _ => return None,
        };
        let channel = Channel { kinds, capacity };
        holds(!channel.too_large())?;
        Some(channel)
    }

    fn member(&self, g: usize, channels: &[Channel]) -> Option<Member> {
        let graph = self.graphs[g].graph()?;
        let communications = (0..graph.actions.len())
            .map(|a| entry(self.communications[g][a], &graph, a, channels))
            .collect::<Option<_>>()?;
        Some(Member {
            graph,
            communications,
        })
    }

    /// An empty system: no other word is written.
    pub fn clear(&mut self) {
        self.head[..CHANNEL_ROWS].fill(0);
    }

    pub fn add_graph(&mut self) -> u32 {
        let graph = self.head[GRAPHS];
        self.head[GRAPHS] += 1;
        self.graphs[graph as usize].clear();
        graph as u32
    }

    pub fn add_channel(&mut self, channel: &Channel) -> u32 {
        let q = self.head[CHANNELS];
        self.head[CHANNELS] += 1;
        let row = &mut self.head[CHANNEL_ROWS + CHANNEL_WIDTH * q as usize..][..CHANNEL_WIDTH];
        row[0] = channel.width() as u64;
        for (word, &kind) in row[1..].iter_mut().zip(&channel.kinds) {
            *word = kind_word(kind);
        }
        match channel.capacity {
            Capacity::Bounded(capacity) => (row[5], row[6]) = (0, u64::from(capacity)),
            Capacity::Unbounded => row[5] = 1,
            Capacity::Sink => row[5] = 2,
        }
        q as u32
    }

    /// Adds an accepted part to a graph; an action gets its communication word.
    pub fn add(&mut self, g: usize, building: &SystemBuilding) -> u32 {
        let (own, entry) = match building {
            SystemBuilding::Own(own) => (own.clone(), None),
            SystemBuilding::Send(channel, messages) => (
                Building::Send(messages.clone()),
                Some((Kind::Send, channel)),
            ),
            SystemBuilding::Receive(channel, vars) => (
                Building::Receive(vars.clone()),
                Some((Kind::Receive, channel)),
            ),
            SystemBuilding::Probe(channel, kind) => {
                (Building::Send(vec![]), Some((*kind, channel)))
            }
        };
        let number = self.graphs[g].add(&own);
        let word = entry.map_or(0, |(kind, &channel)| {
            let channel = channel as usize;
            Communication { kind, channel }.word()
        });
        if entry.is_some() || own == Building::Action {
            self.communications[g][number as usize] = word;
        }
        number
    }
}

/// The entry of an action: none exactly for a plain one; else of the channel's kinds, or a probe, which has no values.
fn entry(
    word: u64,
    graph: &Graph,
    action: usize,
    channels: &[Channel],
) -> Option<Option<Communication>> {
    let action = &graph.actions[action];
    if word == 0 {
        return matches!(action, Action::Plain { .. }).then_some(None);
    }
    let communication = Communication::of_word(word)?;
    let channel = channels.get(communication.channel)?;
    let kinds = kinds_of(graph, action)?;
    holds(match communication.kind {
        Kind::Send => matches!(action, Action::Send(_)) && kinds == channel.kinds,
        Kind::Receive => matches!(action, Action::Receive(_)) && kinds == channel.kinds,
        Kind::Empty | Kind::Full => matches!(action, Action::Send(_)) && kinds.is_empty(),
    })?;
    Some(Some(communication))
}

/// The kinds of a message's values.
fn kinds_of(graph: &Graph, action: &Action) -> Option<Vec<Type>> {
    match action {
        Action::Plain { .. } => None,
        Action::Send(messages) => messages
            .iter()
            .map(|items| Some(expression::type_of(items, &graph.vars)?.kind))
            .collect(),
        Action::Receive(vars) => vars
            .iter()
            .map(|&var| Some(graph.vars.get(var as usize)?.r#type()))
            .collect(),
    }
}

/// A queue as a list, oldest first, with the counts of its ring.
#[derive(Debug, Clone, PartialEq, Eq)]
pub struct Queue {
    pub read: u32,
    pub write: u32,
    pub values: Vec<Val>,
}

#[derive(Debug, Clone, PartialEq, Eq)]
pub struct State {
    pub time: u32,
    pub runs: Vec<Run>,
    pub queues: Vec<Queue>,
}

/// A state without the counts of its rings: what the Rust has of it.
#[derive(Debug, Clone, PartialEq, Eq)]
pub struct Parts {
    pub time: u32,
    pub runs: Vec<Run>,
    pub queues: Vec<Vec<Val>>,
}

impl State {
    pub fn fresh(system: &System) -> Self {
        let empty = Queue {
            read: 0,
            write: 0,
            values: vec![],
        };
        State {
            time: 0,
            runs: system
                .members
                .iter()
                .map(|member| Run::fresh(&member.graph))
                .collect(),
            queues: vec![empty; system.channels.len()],
        }
    }

    pub fn parts(&self) -> Parts {
        Parts {
            time: self.time,
            runs: self.runs.clone(),
            queues: self.queues.iter().map(|q| q.values.clone()).collect(),
        }
    }
}

impl Queue {
    pub fn push(&mut self, vals: &[Val]) {
        self.values.extend(vals);
        self.write = self.write.wrapping_add(vals.len() as u32);
    }

    pub fn pop(&mut self, width: usize) {
        self.values.drain(..width);
        self.read = self.read.wrapping_add(width as u32);
    }
}

/// The state's words.
#[derive(Clone)]
pub struct StateWords {
    words: Vec<u64>,
}

impl Default for StateWords {
    fn default() -> Self {
        StateWords {
            words: vec![0; STATE_WORDS],
        }
    }
}

impl StateWords {
    pub fn poke(&mut self, place: usize, word: u64) {
        self.words[place] = word;
    }

    pub fn sum(&self) -> u64 {
        weighted(&self.words, 0)
    }

    /// The state, if it is a well-formed one of this system.
    pub fn state(&self, system: &System) -> Option<State> {
        let time = u32::try_from(self.words[0]).ok()?;
        let runs = system.members.iter().enumerate();
        let queues = system.channels.iter().enumerate();
        Some(State {
            time,
            runs: runs
                .map(|(g, member)| self.run(g, &member.graph))
                .collect::<Option<_>>()?,
            queues: queues
                .map(|(q, channel)| self.queue(q, channel))
                .collect::<Option<_>>()?,
        })
    }

    fn run(&self, g: usize, graph: &Graph) -> Option<Run> {
        let words = &self.words[RUNS + RUN_WIDTH * g..][..RUN_WIDTH];
        let counts = [
            graph.processes.len(),
            graph.vars.len(),
            graph.clocks as usize,
        ];
        holds(words.iter().zip(counts).all(|(&w, c)| w == c as u64))?;
        let mut run = Run::zeros();
        [run.processes, run.variables, run.timers] = counts;
        for (process, place) in run.places[..run.processes].iter_mut().enumerate() {
            *place = u32::try_from(words[PLACES + process]).ok()?;
        }
        for (var, val) in run.vars[..run.variables].iter_mut().enumerate() {
            let at = VALUES + 2 * var;
            *val = value_of(words[at], words[at + 1])?;
        }
        for (clock, time) in run.clocks[..run.timers].iter_mut().enumerate() {
            *time = u32::try_from(words[CLOCKS + clock]).ok()?;
        }
        run.fits(graph).then_some(run)
    }

    fn queue(&self, q: usize, channel: &Channel) -> Option<Queue> {
        let words = &self.words[QUEUES + QUEUE_WIDTH * q..][..QUEUE_WIDTH];
        let read = u32::try_from(words[0]).ok()?;
        let write = u32::try_from(words[1]).ok()?;
        let stored = write.wrapping_sub(read);
        holds(u64::from(stored) <= channel.ceiling())?;
        let width = channel.width();
        holds(stored == 0 || (stored as usize).is_multiple_of(width))?;
        let values = (0..stored)
            .zip(channel.kinds.iter().cycle())
            .map(|(i, kind)| {
                let at = slot(read.wrapping_add(i));
                let val = value_of(words[at], words[at + 1])?;
                (val.r#type() == *kind).then_some(val)
            })
            .collect::<Option<_>>()?;
        Some(Queue {
            read,
            write,
            values,
        })
    }

    /// Writes the used words alone.
    pub fn store(&mut self, state: &State) {
        self.words[0] = u64::from(state.time);
        for (g, run) in state.runs.iter().enumerate() {
            self.store_run(g, run);
        }
        for (q, queue) in state.queues.iter().enumerate() {
            self.store_queue(q, queue);
        }
    }

    fn store_run(&mut self, g: usize, run: &Run) {
        let words = &mut self.words[RUNS + RUN_WIDTH * g..][..RUN_WIDTH];
        let counts = [run.processes, run.variables, run.timers];
        for (word, count) in words.iter_mut().zip(counts) {
            *word = count as u64;
        }
        for (word, &place) in words[PLACES..].iter_mut().zip(run.used_places()) {
            *word = u64::from(place);
        }
        for (pair, &val) in words[VALUES..CLOCKS]
            .chunks_exact_mut(2)
            .zip(run.used_vars())
        {
            pair.copy_from_slice(&value_words(val));
        }
        for (word, &clock) in words[CLOCKS..].iter_mut().zip(run.used_clocks()) {
            *word = u64::from(clock);
        }
    }

    fn store_queue(&mut self, q: usize, queue: &Queue) {
        let words = &mut self.words[QUEUES + QUEUE_WIDTH * q..][..QUEUE_WIDTH];
        words[0] = u64::from(queue.read);
        words[1] = u64::from(queue.write);
        for (i, &val) in (0..).zip(&queue.values) {
            let at = slot(queue.read.wrapping_add(i));
            words[at..at + 2].copy_from_slice(&value_words(val));
        }
    }
}

/// Where the value of a count stands in a queue's words.
fn slot(count: u32) -> usize {
    2 + 2 * (count as usize % ROOM)
}
