//! The calls of the line language, and how lines are read.

use crate::answer::EPSILON;
use crate::expression::{BOOLEAN, INTEGER, VARIABLE};
use crate::system_call::SystemCall;
use crate::table::WORDS;
use scan_core::{Type, Val};
use std::ops::Bound;

/// Words of items, see docs/DECISIONS.md.
pub type Items = Vec<u64>;

#[derive(Debug, Clone, Copy, PartialEq, Eq)]
pub struct Limit {
    pub clock: u32,
    pub lower: Bound<u32>,
    pub upper: Bound<u32>,
}

#[derive(Debug, Clone, PartialEq, Eq)]
pub enum Call {
    NewGraph,
    Building(Building),
    Kind(u32),
    Build,
    NewRun,
    Running(Running),
    Show,
    Has(Bound<u32>, Bound<u32>, u32),
    Shift(Bound<u32>, Bound<u32>, u32),
    Type(Items, Vec<Type>),
    Draws(Items),
    Eval(Items, Vec<Val>, u64),
    Poke(usize, u64),
    Sum,
    /// Of the channel layer.
    System(SystemCall),
}

/// A list of limits is absent in the untimed forms of a call.
#[derive(Debug, Clone, PartialEq, Eq)]
pub enum Building {
    Var(Val),
    Clock,
    Action,
    Send(Vec<Items>),
    Receive(Vec<u32>),
    Reset(u32, u32),
    Effect(u32, u32, Items),
    Location(Option<Vec<Limit>>),
    Process(u32),
    Initial(Option<Vec<Limit>>),
    Transition(NewTransition),
}

#[derive(Debug, Clone, PartialEq, Eq)]
pub struct NewTransition {
    pub pre: u32,
    pub action: u32,
    pub post: u32,
    pub guard: Option<Items>,
    pub limits: Option<Vec<Limit>>,
    /// Written as `g auto`, so that its action is EPSILON.
    pub autonomous: bool,
}

#[derive(Debug, Clone, PartialEq, Eq)]
pub enum Running {
    Step(u32, Vec<u32>, u64),
    Send(u32, Vec<u32>, u64),
    Receive(u32, Vec<u32>, Vec<Val>),
    Wait(u32),
    Can(u32),
    Waiting,
    List(u32),
    Solo(u32),
    Value(u32),
    Clock(u32),
    Places,
}

/// Of an expression that stands alone.
const MOST_VARS: usize = 16;
const MOST_ITEMS: usize = 100;
const MOST_LIMITS: usize = 16;
pub(crate) const MOST_POSTS: usize = 8;
pub(crate) const MOST_OTHERS: usize = 6;

/// The call that a line names, if it is a line of the language.
pub fn read(line: &[u8]) -> Option<Call> {
    let tokens: Vec<&[u8]> = line.split(|&byte| byte == b' ').collect();
    let mut rest = Tokens { tokens: &tokens };
    let call = rest.call()?;
    rest.ended().then_some(call)
}

pub(crate) struct Tokens<'a> {
    tokens: &'a [&'a [u8]],
}

impl<'a> Tokens<'a> {
    pub(crate) fn next(&mut self) -> Option<&'a [u8]> {
        let (first, rest) = self.tokens.split_first()?;
        self.tokens = rest;
        Some(first)
    }

    fn ended(&self) -> bool {
        self.tokens.is_empty()
    }

    pub(crate) fn comes(&self, token: &[u8]) -> bool {
        self.tokens.first() == Some(&token)
    }

    pub(crate) fn expect(&mut self, token: &[u8]) -> Option<()> {
        (self.next()? == token).then_some(())
    }

    fn call(&mut self) -> Option<Call> {
        match self.next()? {
            b"type" => Some(Call::Type(self.expression()?, kinds(self.next()?)?)),
            b"draws" => Some(Call::Draws(self.expression()?)),
            b"eval" => Some(Call::Eval(
                self.expression()?,
                self.between(b"(", b")", MOST_VARS, Tokens::value)?,
                wide(self.next()?)?,
            )),
            b"g" => self.graph_call(),
            b"r" => self.run_call(),
            b"range" => self.range_call(),
            b"s" => self.system_call().map(Call::System),
            b"t" => self.state_call().map(Call::System),
            b"poke" if !self.comes(b"g") => self.system_poke().map(Call::System),
            b"poke" => {
                self.expect(b"g")?;
                let place = self.number()? as usize;
                let word = wide(self.next()?)?;
                (place < WORDS).then_some(Call::Poke(place, word))
            }
            b"sum" if !self.comes(b"g") => self.system_sum().map(Call::System),
            b"sum" => {
                self.expect(b"g")?;
                Some(Call::Sum)
            }
            _ => None,
        }
    }

    fn graph_call(&mut self) -> Option<Call> {
        match self.next()? {
            b"new" => Some(Call::NewGraph),
            b"build" => Some(Call::Build),
            b"kind" => Some(Call::Kind(self.number()?)),
            word => self.building(word).map(Call::Building),
        }
    }

    /// A call that adds to a graph, from its name on.
    pub(crate) fn building(&mut self, word: &[u8]) -> Option<Building> {
        let building = match word {
            b"var" => Building::Var(self.value()?),
            b"clock" => Building::Clock,
            b"action" => Building::Action,
            b"send" => Building::Send(self.until_end(Tokens::expression)?),
            b"receive" => Building::Receive(self.until_end(Tokens::number)?),
            b"reset" => Building::Reset(self.action()?, self.number()?),
            b"effect" => Building::Effect(self.action()?, self.number()?, self.expression()?),
            b"location" => Building::Location(self.limits_or_end()?),
            b"process" => Building::Process(self.number()?),
            b"initial" => Building::Initial(self.limits_or_end()?),
            b"transition" => {
                let (pre, action, post) = (self.number()?, self.action()?, self.number()?);
                Building::Transition(self.transition(pre, action, post, false)?)
            }
            b"auto" => {
                let (pre, post) = (self.number()?, self.number()?);
                Building::Transition(self.transition(pre, EPSILON, post, true)?)
            }
            _ => return None,
        };
        Some(building)
    }

    fn transition(
        &mut self,
        pre: u32,
        action: u32,
        post: u32,
        autonomous: bool,
    ) -> Option<NewTransition> {
        Some(NewTransition {
            pre,
            action,
            post,
            guard: self.guard()?,
            limits: self.limits_or_end()?,
            autonomous,
        })
    }

    fn run_call(&mut self) -> Option<Call> {
        let running = match self.next()? {
            b"new" => return Some(Call::NewRun),
            b"show" => return Some(Call::Show),
            b"step" => Running::Step(self.action()?, self.posts()?, wide(self.next()?)?),
            b"send" => Running::Send(self.action()?, self.posts()?, wide(self.next()?)?),
            b"receive" => Running::Receive(
                self.action()?,
                self.posts()?,
                self.until_end(Tokens::value)?,
            ),
            b"wait" => Running::Wait(self.number()?),
            b"can" => Running::Can(self.number()?),
            b"waiting" => Running::Waiting,
            b"list" => Running::List(self.number()?),
            b"solo" => Running::Solo(self.number()?),
            b"value" => Running::Value(self.number()?),
            b"clock" => Running::Clock(self.number()?),
            b"places" => Running::Places,
            _ => return None,
        };
        Some(Call::Running(running))
    }

    fn range_call(&mut self) -> Option<Call> {
        let (lower, upper) = (self.bound()?, self.bound()?);
        match self.next()? {
            b"has" => Some(Call::Has(lower, upper, self.number()?)),
            b"shift" => Some(Call::Shift(lower, upper, self.number()?)),
            _ => None,
        }
    }

    /// None or more, up to the end of the line.
    pub(crate) fn until_end<T>(&mut self, one: fn(&mut Self) -> Option<T>) -> Option<Vec<T>> {
        let mut all = Vec::new();
        while !self.ended() {
            all.push(one(self)?);
        }
        (all.len() <= MOST_OTHERS).then_some(all)
    }

    /// None or more between two brackets.
    pub(crate) fn between<T>(
        &mut self,
        open: &[u8],
        close: &[u8],
        most: usize,
        one: fn(&mut Self) -> Option<T>,
    ) -> Option<Vec<T>> {
        self.expect(open)?;
        let mut all = Vec::new();
        while !self.comes(close) {
            all.push(one(self)?);
        }
        self.expect(close)?;
        (all.len() <= most).then_some(all)
    }

    pub(crate) fn number(&mut self) -> Option<u32> {
        number(self.next()?)
    }

    fn action(&mut self) -> Option<u32> {
        match self.next()? {
            b"e" => Some(EPSILON),
            token => number(token),
        }
    }

    fn value(&mut self) -> Option<Val> {
        match self.next()? {
            b"b0" => Some(Val::Boolean(false)),
            b"b1" => Some(Val::Boolean(true)),
            [b'i', rest @ ..] => integer(rest).map(Val::Integer),
            _ => None,
        }
    }

    fn bound(&mut self) -> Option<Bound<u32>> {
        match self.next()? {
            b"*" => Some(Bound::Unbounded),
            [b'=', rest @ ..] => number(rest).map(Bound::Included),
            [b'!', rest @ ..] => number(rest).map(Bound::Excluded),
            _ => None,
        }
    }

    fn limit(&mut self) -> Option<Limit> {
        Some(Limit {
            clock: self.number()?,
            lower: self.bound()?,
            upper: self.bound()?,
        })
    }

    fn limits_or_end(&mut self) -> Option<Option<Vec<Limit>>> {
        if self.ended() {
            return Some(None);
        }
        self.between(b"[", b"]", MOST_LIMITS, Tokens::limit)
            .map(Some)
    }

    fn posts(&mut self) -> Option<Vec<u32>> {
        self.between(b"(", b")", MOST_POSTS, Tokens::number)
    }

    fn guard(&mut self) -> Option<Option<Items>> {
        if self.comes(b"-") {
            self.next();
            return Some(None);
        }
        self.expression().map(Some)
    }

    pub(crate) fn expression(&mut self) -> Option<Items> {
        self.between(b"{", b"}", MOST_ITEMS, |tokens| item(tokens.next()?))
    }
}

/// The word of an item; 0 for `x`, which is none.
fn item(token: &[u8]) -> Option<u64> {
    match token {
        b"x" => Some(0),
        b"!" => Some(1),
        b"&" => Some(2),
        b"|" => Some(3),
        b"~" => Some(4),
        b"+" => Some(5),
        b"-" => Some(6),
        b"*" => Some(7),
        b"/" => Some(8),
        b"%" => Some(9),
        b"=" => Some(10),
        b"<" => Some(11),
        b"<=" => Some(12),
        b"?" => Some(13),
        b"f" => Some(BOOLEAN),
        b"t" => Some(BOOLEAN + 256),
        [b'#', rest @ ..] => integer(rest).map(|i| INTEGER + 256 * u64::from(i.cast_unsigned())),
        [b'v', rest @ ..] => number(rest).map(|n| VARIABLE + 256 * u64::from(n)),
        _ => None,
    }
}

/// Kinds of variables: a letter for each, `-` for none.
fn kinds(token: &[u8]) -> Option<Vec<Type>> {
    if token == b"-" {
        return Some(vec![]);
    }
    let kind = |letter: &u8| match letter {
        b'b' => Some(Type::Boolean),
        b'i' => Some(Type::Integer),
        _ => None,
    };
    let fits = (1..=MOST_VARS).contains(&token.len());
    fits.then(|| token.iter().map(kind).collect())?
}

fn digits(token: &[u8], most: usize) -> Option<u128> {
    let good = (1..=most).contains(&token.len()) && token.iter().all(u8::is_ascii_digit);
    good.then(|| {
        token
            .iter()
            .fold(0, |sum, digit| 10 * sum + u128::from(digit - b'0'))
    })
}

pub(crate) fn number(token: &[u8]) -> Option<u32> {
    digits(token, 10)?.try_into().ok()
}

pub(crate) fn wide(token: &[u8]) -> Option<u64> {
    digits(token, 20)?.try_into().ok()
}

fn integer(token: &[u8]) -> Option<i32> {
    let value = match token {
        [b'-', rest @ ..] => -(digits(rest, 10)? as i64),
        _ => digits(token, 10)? as i64,
    };
    value.try_into().ok()
}
