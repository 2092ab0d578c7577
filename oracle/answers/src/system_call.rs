//! The calls of the channel layer, and how their lines are read.

use crate::answer::EPSILON;
use crate::call::{Building, Items, MOST_OTHERS, MOST_POSTS, Tokens, number, wide};
use crate::system_table::{Capacity, Kind, STATE_WORDS, SYSTEM_WORDS};
use crate::why::{ALL_GUARDS, ALL_LIMITS};
use scan_core::Type;

#[derive(Debug, Clone, PartialEq, Eq)]
pub enum SystemCall {
    New,
    Graph,
    Channel(Vec<Type>, Capacity),
    /// On the graph of this number.
    Building(u32, SystemBuilding),
    /// Of a graph and a variable.
    Kind(u32, u32),
    Capacity(u32),
    Build,
    NewState,
    Running(SystemRunning),
    Why(Step),
    Replay(Vec<u8>),
    Show,
    Poke(Lent, usize, u64),
    Sum(Lent),
}

/// Which of the lent slices of words: the table, the state, and the two tables of the explainer.
#[derive(Debug, Clone, Copy, PartialEq, Eq)]
pub enum Lent {
    Table,
    State,
    Guards,
    Limits,
}

#[derive(Debug, Clone, PartialEq, Eq)]
pub enum SystemBuilding {
    /// A call of the graph layer that is no communication.
    Own(Building),
    Send(u32, Vec<Items>),
    Receive(u32, Vec<u32>),
    Probe(u32, Kind),
}

/// The longest recording of a line.
const MOST_DIGITS: usize = 4000;

/// A number of a graph with a number of that graph.
pub type Pair = (u32, u32);

#[derive(Debug, Clone, PartialEq, Eq)]
pub enum SystemRunning {
    Step(Step),
    Wait(u32),
    Can(u32),
    Waiting,
    List(u32),
    Pg(u32, u32),
    Solo(u32, u32),
    Time,
    Run(u32),
    Queue(u32, u32),
}

#[derive(Debug, Clone, PartialEq, Eq)]
pub struct Step {
    pub graph: u32,
    pub action: Pair,
    pub posts: Vec<Pair>,
    pub word: u64,
}

impl Tokens<'_> {
    pub(crate) fn system_call(&mut self) -> Option<SystemCall> {
        Some(match self.next()? {
            b"new" => SystemCall::New,
            b"graph" => SystemCall::Graph,
            b"channel" => SystemCall::Channel(kinds(self.next()?)?, capacity(self.next()?)?),
            b"capacity" => SystemCall::Capacity(self.number()?),
            b"build" => SystemCall::Build,
            graph => self.graph_of_system(number(graph)?)?,
        })
    }

    fn graph_of_system(&mut self, graph: u32) -> Option<SystemCall> {
        if self.comes(b"kind") {
            self.next();
            return Some(SystemCall::Kind(graph, self.number()?));
        }
        Some(SystemCall::Building(graph, self.system_building()?))
    }

    fn system_building(&mut self) -> Option<SystemBuilding> {
        Some(match self.next()? {
            b"send" => SystemBuilding::Send(self.number()?, self.until_end(Tokens::expression)?),
            b"receive" => SystemBuilding::Receive(self.number()?, self.until_end(Tokens::number)?),
            b"empty" => SystemBuilding::Probe(self.number()?, Kind::Empty),
            b"full" => SystemBuilding::Probe(self.number()?, Kind::Full),
            word => SystemBuilding::Own(self.building(word)?),
        })
    }

    pub(crate) fn state_call(&mut self) -> Option<SystemCall> {
        let running = match self.next()? {
            b"new" => return Some(SystemCall::NewState),
            b"show" => return Some(SystemCall::Show),
            b"replay" => return Some(SystemCall::Replay(recording(self.next()?)?)),
            b"step" => SystemRunning::Step(self.step()?),
            b"why" => return self.step().map(SystemCall::Why),
            b"wait" => SystemRunning::Wait(self.number()?),
            b"can" => SystemRunning::Can(self.number()?),
            b"waiting" => SystemRunning::Waiting,
            b"list" => SystemRunning::List(self.number()?),
            b"pg" => SystemRunning::Pg(self.number()?, self.number()?),
            b"solo" => SystemRunning::Solo(self.number()?, self.number()?),
            b"time" => SystemRunning::Time,
            b"run" => SystemRunning::Run(self.number()?),
            b"queue" => SystemRunning::Queue(self.number()?, self.number()?),
            _ => return None,
        };
        Some(SystemCall::Running(running))
    }

    fn step(&mut self) -> Option<Step> {
        Some(Step {
            graph: self.number()?,
            action: pair(self.next()?, true)?,
            posts: self.between(b"(", b")", MOST_POSTS, |tokens| pair(tokens.next()?, false))?,
            word: wide(self.next()?)?,
        })
    }

    pub(crate) fn system_poke(&mut self) -> Option<SystemCall> {
        let lent = if self.comes(b"guards") {
            self.next();
            Lent::Guards
        } else if self.comes(b"limits") {
            self.next();
            Lent::Limits
        } else {
            self.lent()?
        };
        let place = self.number()? as usize;
        let word = wide(self.next()?)?;
        let words = match lent {
            Lent::Table => SYSTEM_WORDS,
            Lent::State => STATE_WORDS,
            Lent::Guards => ALL_GUARDS,
            Lent::Limits => ALL_LIMITS,
        };
        (place < words).then_some(SystemCall::Poke(lent, place, word))
    }

    pub(crate) fn system_sum(&mut self) -> Option<SystemCall> {
        self.lent().map(SystemCall::Sum)
    }

    fn lent(&mut self) -> Option<Lent> {
        match self.next()? {
            b"s" => Some(Lent::Table),
            b"t" => Some(Lent::State),
            _ => None,
        }
    }
}

fn kinds(token: &[u8]) -> Option<Vec<Type>> {
    if token == b"-" {
        return Some(vec![]);
    }
    let good = (1..=MOST_OTHERS).contains(&token.len());
    let kinds = token.iter().map(|letter| match letter {
        b'b' => Some(Type::Boolean),
        b'i' => Some(Type::Integer),
        _ => None,
    });
    kinds.collect::<Option<_>>().filter(|_| good)
}

fn capacity(token: &[u8]) -> Option<Capacity> {
    match token {
        b"sink" => Some(Capacity::Sink),
        b"q*" => Some(Capacity::Unbounded),
        [b'q', rest @ ..] => number(rest).map(Capacity::Bounded),
        _ => None,
    }
}

/// Two digits a byte; `-` for no bytes.
fn recording(token: &[u8]) -> Option<Vec<u8>> {
    if token == b"-" {
        return Some(vec![]);
    }
    let good = (1..=MOST_DIGITS).contains(&token.len()) && token.len() % 2 == 0;
    let digit = |byte: &u8| match byte {
        b'0'..=b'9' => Some(byte - b'0'),
        b'a'..=b'f' => Some(byte - b'a' + 10),
        _ => None,
    };
    let bytes = token
        .chunks(2)
        .map(|pair| Some(digit(&pair[0])? * 16 + digit(pair.get(1)?)?));
    bytes.collect::<Option<_>>().filter(|_| good)
}

/// `G:N`; of an action `G:e` too.
fn pair(token: &[u8], action: bool) -> Option<Pair> {
    let colon = token.iter().position(|&byte| byte == b':')?;
    let (graph, rest) = (&token[..colon], &token[colon + 1..]);
    let rest = if action && rest == b"e" {
        EPSILON
    } else {
        number(rest)?
    };
    Some((number(graph)?, rest))
}
