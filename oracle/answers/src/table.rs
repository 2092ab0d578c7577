//! The words of a graph's table, as docs/LAYOUT.md has them: reading a graph out of them, and writing parts into them.

use crate::answer::EPSILON;
use crate::call::{Building, Items, Limit, NewTransition};
use crate::expression::{self, MOST_DRAWS, MOST_ITEMS};
use scan_core::{Type, Val};
use std::ops::Bound;

pub const WORDS: usize = 46_890;

/// Table sizes in the order of the counts.
pub const SIZES: [usize; 6] = [16, 8, 32, 32, 4, 128];
pub const MOST_LIMITS: usize = 8;
pub const MOST_EFFECTS: usize = 16;
pub const MOST_RESETS: usize = 16;
pub const MOST_VALUES: usize = 4;

pub const VARIABLES: usize = 0;
pub const CLOCKS: usize = 1;
pub const LOCATIONS: usize = 2;
pub const ACTIONS: usize = 3;
pub const PROCESSES: usize = 4;
pub const TRANSITIONS: usize = 5;

const KINDS: usize = 6;
const VALUES: usize = 22;
const PLACES: usize = 38;
const INVARIANTS: usize = 42;
const ACTION_ROWS: usize = 74;
const ACTION_WIDTH: usize = 51;
const TRANSITION_ROWS: usize = 1706;
const TRANSITION_WIDTH: usize = 3;
const LIMITS: usize = 2090;
const LIMIT_WIDTH: usize = 3;
const GROUP_WIDTH: usize = 24;
const LOCATION_GROUPS: usize = 128;
const GUARDS: usize = 5930;
const EFFECTS: usize = 14_122;
const SLOT_WIDTH: usize = 64;

/// What the used words say.
#[derive(Debug, Clone, PartialEq, Eq, Default)]
pub struct Graph {
    pub vars: Vec<Val>,
    pub clocks: u32,
    /// The invariants of each location.
    pub locations: Vec<Vec<Limit>>,
    pub actions: Vec<Action>,
    /// The location where each process starts.
    pub processes: Vec<u32>,
    pub transitions: Vec<Transition>,
}

#[derive(Debug, Clone, PartialEq, Eq)]
pub enum Action {
    Plain {
        effects: Vec<(u32, Items)>,
        resets: Vec<u32>,
    },
    Send(Vec<Items>),
    Receive(Vec<u32>),
}

#[derive(Debug, Clone, PartialEq, Eq)]
pub struct Transition {
    pub pre: u32,
    pub action: u32,
    pub post: u32,
    pub guard: Option<Items>,
    pub limits: Vec<Limit>,
}

impl Transition {
    fn key(&self) -> u64 {
        key(self.pre, self.action, self.post)
    }
}

fn key(pre: u32, action: u32, post: u32) -> u64 {
    ((u64::from(pre) << 32) + u64::from(action)) * 32 + u64::from(post)
}

pub fn contains(lower: Bound<u32>, upper: Bound<u32>, time: u32) -> bool {
    lower_met(lower, time) && upper_met(upper, time)
}

pub fn lower_met(lower: Bound<u32>, time: u32) -> bool {
    match lower {
        Bound::Unbounded => true,
        Bound::Included(bound) => time >= bound,
        Bound::Excluded(bound) => time > bound,
    }
}

pub fn upper_met(upper: Bound<u32>, time: u32) -> bool {
    match upper {
        Bound::Unbounded => true,
        Bound::Included(bound) => time <= bound,
        Bound::Excluded(bound) => time < bound,
    }
}

fn bound_word(bound: Bound<u32>) -> u64 {
    match bound {
        Bound::Unbounded => 0,
        Bound::Included(time) => 4 * u64::from(time) + 1,
        Bound::Excluded(time) => 4 * u64::from(time) + 2,
    }
}

fn word_bound(word: u64) -> Option<Bound<u32>> {
    if word == 0 {
        return Some(Bound::Unbounded);
    }
    let time = u32::try_from(word / 4).ok()?;
    match word % 4 {
        1 => Some(Bound::Included(time)),
        2 => Some(Bound::Excluded(time)),
        _ => None,
    }
}

/// Nothing where the test fails, so that `?` leaves a badly formed table.
fn holds(test: bool) -> Option<()> {
    test.then_some(())
}

#[derive(Debug, Clone)]
pub struct Table {
    words: Vec<u64>,
}

impl Default for Table {
    fn default() -> Self {
        Table {
            words: vec![0; WORDS],
        }
    }
}

/// Reading. Each part is nothing where it is badly formed.
impl Table {
    pub fn poke(&mut self, place: usize, word: u64) {
        self.words[place] = word;
    }

    pub fn sum(&self) -> u64 {
        (1..).zip(&self.words).fold(0, |sum: u64, (place, word)| {
            sum.wrapping_add(word.wrapping_mul(place))
        })
    }

    pub fn words(&self) -> &[u64] {
        &self.words
    }

    /// A count, cut at its table size.
    pub fn cut_count(&self, part: usize) -> usize {
        self.words[part].min(SIZES[part] as u64) as usize
    }

    /// The graph, if the table is well formed as one that is being built: it may lack a process.
    pub fn graph(&self) -> Option<Graph> {
        for (part, &size) in SIZES.iter().enumerate() {
            self.count_at(part, size)?;
        }
        let mut graph = Graph {
            vars: self.all(VARIABLES, |var| self.var(var))?,
            clocks: self.words[CLOCKS] as u32,
            ..Graph::default()
        };
        graph.locations = self.all(LOCATIONS, |location| self.invariants(&graph, location))?;
        graph.processes = self.all(PROCESSES, |process| self.process(&graph, process))?;
        graph.actions = self.all(ACTIONS, |action| self.action(&graph, action))?;
        graph.transitions = self.all(TRANSITIONS, |k| self.transition(&graph, k))?;
        holds(graph.transitions.is_sorted_by_key(Transition::key))?;
        Some(graph)
    }

    fn all<T>(&self, part: usize, one: impl Fn(usize) -> Option<T>) -> Option<Vec<T>> {
        (0..self.words[part] as usize).map(one).collect()
    }

    fn count_at(&self, place: usize, most: usize) -> Option<usize> {
        let count = self.words[place];
        holds(count <= most as u64)?;
        Some(count as usize)
    }

    /// A number below `end`.
    fn number_at(&self, place: usize, end: usize) -> Option<u32> {
        let number = self.words[place];
        holds(number < end as u64)?;
        Some(number as u32)
    }

    fn var(&self, var: usize) -> Option<Val> {
        let value = self.words[VALUES + var];
        match self.words[KINDS + var] {
            0 if value < 2 => Some(Val::Boolean(value == 1)),
            1 => Some(Val::Integer(u32::try_from(value).ok()?.cast_signed())),
            _ => None,
        }
    }

    fn invariants(&self, graph: &Graph, location: usize) -> Option<Vec<Limit>> {
        let count = self.count_at(INVARIANTS + location, MOST_LIMITS)?;
        self.limits(graph, LOCATION_GROUPS + location, count)
    }

    fn limits(&self, graph: &Graph, group: usize, count: usize) -> Option<Vec<Limit>> {
        let start = LIMITS + GROUP_WIDTH * group;
        let limits: Vec<Limit> = (0..count)
            .map(|i| {
                let place = start + LIMIT_WIDTH * i;
                Some(Limit {
                    clock: self.number_at(place, graph.clocks as usize)?,
                    lower: word_bound(self.words[place + 1])?,
                    upper: word_bound(self.words[place + 2])?,
                })
            })
            .collect::<Option<_>>()?;
        holds(limits.is_sorted_by_key(|limit| limit.clock))?;
        Some(limits)
    }

    fn process(&self, graph: &Graph, process: usize) -> Option<u32> {
        let place = self.number_at(PLACES + process, graph.locations.len())?;
        holds(allows_start(&graph.locations[place as usize]))?;
        Some(place)
    }

    fn action(&self, graph: &Graph, action: usize) -> Option<Action> {
        let row = ACTION_ROWS + ACTION_WIDTH * action;
        match self.words[row] {
            0 => self.plain(graph, action, row),
            1 => {
                self.count_at(row + 1, 0)?;
                let count = self.count_at(row + 2, MOST_VALUES)?;
                let messages = (0..count).map(|e| Some(self.effect(graph, action, e)?.0));
                let messages: Vec<Items> = messages.collect::<Option<_>>()?;
                holds(draws_fit(&messages))?;
                Some(Action::Send(messages))
            }
            2 => {
                self.count_at(row + 1, 0)?;
                let count = self.count_at(row + 2, MOST_VALUES)?;
                let vars = (0..count).map(|e| self.number_at(row + 19 + e, graph.vars.len()));
                Some(Action::Receive(vars.collect::<Option<_>>()?))
            }
            _ => None,
        }
    }

    fn plain(&self, graph: &Graph, action: usize, row: usize) -> Option<Action> {
        let resets = self.count_at(row + 1, MOST_RESETS)?;
        let resets = (0..resets).map(|i| self.number_at(row + 3 + i, graph.clocks as usize));
        let resets: Vec<u32> = resets.collect::<Option<_>>()?;
        holds(resets.is_sorted())?;
        let effects = self.count_at(row + 2, MOST_EFFECTS)?;
        let effects = (0..effects).map(|e| {
            let var = self.number_at(row + 19 + e, graph.vars.len())?;
            let (items, kind) = self.effect(graph, action, e)?;
            holds(kind == graph.vars[var as usize].r#type())?;
            Some((var, items))
        });
        let effects: Vec<(u32, Items)> = effects.collect::<Option<_>>()?;
        holds(draws_fit(effects.iter().map(|(_, items)| items)))?;
        Some(Action::Plain { effects, resets })
    }

    fn effect(&self, graph: &Graph, action: usize, e: usize) -> Option<(Items, Type)> {
        let length = ACTION_ROWS + ACTION_WIDTH * action + 35 + e;
        self.items(graph, EFFECTS + SLOT_WIDTH * (32 * e + action), length)
    }

    /// A well-typed expression of 1 to 64 items that is not too deep, and its kind.
    fn items(&self, graph: &Graph, start: usize, length: usize) -> Option<(Items, Type)> {
        let length = self.count_at(length, MOST_ITEMS)?;
        let items = &self.words[start..start + length];
        let typed = expression::type_of(items, &graph.vars)?;
        holds(!typed.too_deep)?;
        Some((items.to_vec(), typed.kind))
    }

    fn transition(&self, graph: &Graph, k: usize) -> Option<Transition> {
        let row = TRANSITION_ROWS + TRANSITION_WIDTH * k;
        let key = self.words[row];
        let locations = graph.locations.len() as u64;
        let (pre, action, post) = (key >> 37, (key >> 5) as u32, key % 32);
        holds(pre < locations && post < locations)?;
        holds(action == EPSILON || (action as usize) < graph.actions.len())?;
        let guard = match self.words[row + 1] {
            0 => None,
            _ => Some(self.guard(graph, k, row + 1)?),
        };
        let limits = self.count_at(row + 2, MOST_LIMITS)?;
        Some(Transition {
            pre: pre as u32,
            action,
            post: post as u32,
            guard,
            limits: self.limits(graph, k, limits)?,
        })
    }

    fn guard(&self, graph: &Graph, k: usize, length: usize) -> Option<Items> {
        let (items, kind) = self.items(graph, GUARDS + SLOT_WIDTH * k, length)?;
        holds(kind == Type::Boolean && expression::draws(&items) == 0)?;
        Some(items)
    }
}

/// Whether a process may start at a location with these invariants: all clocks start at 0.
pub fn allows_start(invariants: &[Limit]) -> bool {
    invariants
        .iter()
        .all(|limit| contains(limit.lower, limit.upper, 0))
}

pub fn draws_fit<'a>(expressions: impl IntoIterator<Item = &'a Items>) -> bool {
    let draws = expressions
        .into_iter()
        .map(|items| expression::draws(items));
    draws.sum::<usize>() <= MOST_DRAWS
}

/// Writing. A part is known to be allowed, and its number is the count before it.
impl Table {
    /// An empty graph: no other word is written.
    pub fn clear(&mut self) {
        self.words[..SIZES.len()].fill(0);
    }

    /// Adds an accepted part and says its number.
    pub fn add(&mut self, building: &Building) -> u32 {
        match building {
            Building::Var(val) => self.add_var(*val),
            Building::Clock => self.one_more(CLOCKS) as u32,
            Building::Action => self.add_action(0, 0) as u32,
            Building::Send(messages) => {
                let action = self.add_action(1, messages.len());
                for (e, items) in messages.iter().enumerate() {
                    self.write_effect(action, e, items);
                }
                action as u32
            }
            Building::Receive(vars) => {
                let action = self.add_action(2, vars.len());
                let row = ACTION_ROWS + ACTION_WIDTH * action;
                for (place, &var) in (row + 19..).zip(vars) {
                    self.words[place] = u64::from(var);
                }
                action as u32
            }
            Building::Reset(action, clock) => self.add_reset(*action as usize, *clock),
            Building::Effect(action, var, items) => self.add_effect(*action as usize, *var, items),
            Building::Location(limits) => self.add_location(limits.as_deref().unwrap_or(&[])),
            Building::Process(location) => self.add_process(*location),
            Building::Initial(limits) => {
                let location = self.add_location(limits.as_deref().unwrap_or(&[]));
                self.add_process(location);
                location
            }
            Building::Transition(transition) => self.add_transition(transition),
        }
    }

    fn one_more(&mut self, part: usize) -> usize {
        let count = self.words[part];
        self.words[part] = count + 1;
        count as usize
    }

    fn add_var(&mut self, val: Val) -> u32 {
        let var = self.one_more(VARIABLES);
        let (kind, value) = match val {
            Val::Boolean(b) => (0, u64::from(b)),
            Val::Integer(i) => (1, u64::from(i.cast_unsigned())),
        };
        self.words[KINDS + var] = kind;
        self.words[VALUES + var] = value;
        var as u32
    }

    fn add_action(&mut self, kind: u64, effects: usize) -> usize {
        let action = self.one_more(ACTIONS);
        let row = ACTION_ROWS + ACTION_WIDTH * action;
        self.words[row] = kind;
        self.words[row + 1] = 0;
        self.words[row + 2] = effects as u64;
        action
    }

    fn write_effect(&mut self, action: usize, e: usize, items: &[u64]) {
        let row = ACTION_ROWS + ACTION_WIDTH * action;
        self.words[row + 35 + e] = items.len() as u64;
        let slot = EFFECTS + SLOT_WIDTH * (32 * e + action);
        self.words[slot..slot + items.len()].copy_from_slice(items);
    }

    fn add_reset(&mut self, action: usize, clock: u32) -> u32 {
        let row = ACTION_ROWS + ACTION_WIDTH * action;
        let resets = self.words[row + 1] as usize;
        let start = row + 3;
        let at = self.words[start..start + resets].partition_point(|&c| c <= u64::from(clock));
        self.open_gap(start, 1, at, resets);
        self.words[start + at] = u64::from(clock);
        self.words[row + 1] += 1;
        0
    }

    fn add_effect(&mut self, action: usize, var: u32, items: &[u64]) -> u32 {
        let row = ACTION_ROWS + ACTION_WIDTH * action;
        let e = self.words[row + 2] as usize;
        self.words[row + 19 + e] = u64::from(var);
        self.write_effect(action, e, items);
        self.words[row + 2] += 1;
        0
    }

    fn add_location(&mut self, invariants: &[Limit]) -> u32 {
        let location = self.one_more(LOCATIONS);
        self.words[INVARIANTS + location] = invariants.len() as u64;
        self.write_limits(LOCATION_GROUPS + location, invariants);
        location as u32
    }

    /// Limits in the order of their clocks, equal ones as handed.
    fn write_limits(&mut self, group: usize, limits: &[Limit]) {
        let mut sorted = limits.to_vec();
        sorted.sort_by_key(|limit| limit.clock);
        let start = LIMITS + GROUP_WIDTH * group;
        for (i, limit) in sorted.iter().enumerate() {
            let place = start + LIMIT_WIDTH * i;
            self.words[place] = u64::from(limit.clock);
            self.words[place + 1] = bound_word(limit.lower);
            self.words[place + 2] = bound_word(limit.upper);
        }
    }

    fn add_process(&mut self, location: u32) -> u32 {
        let process = self.one_more(PROCESSES);
        self.words[PLACES + process] = u64::from(location);
        process as u32
    }

    /// Rows, groups and slots of the later transitions move whole, with what stands unused in them.
    fn add_transition(&mut self, new: &NewTransition) -> u32 {
        let key = key(new.pre, new.action, new.post);
        let count = self.one_more(TRANSITIONS);
        let row = |k| TRANSITION_ROWS + TRANSITION_WIDTH * k;
        let at = (0..count)
            .find(|&k| self.words[row(k)] > key)
            .unwrap_or(count);
        self.open_gap(TRANSITION_ROWS, TRANSITION_WIDTH, at, count);
        self.open_gap(LIMITS, GROUP_WIDTH, at, count);
        self.open_gap(GUARDS, SLOT_WIDTH, at, count);
        let guard = new.guard.as_deref().unwrap_or(&[]);
        let limits = new.limits.as_deref().unwrap_or(&[]);
        self.words[row(at)] = key;
        self.words[row(at) + 1] = guard.len() as u64;
        self.words[row(at) + 2] = limits.len() as u64;
        self.write_limits(at, limits);
        let slot = GUARDS + SLOT_WIDTH * at;
        self.words[slot..slot + guard.len()].copy_from_slice(guard);
        0
    }

    /// Rows `at..count` move up by one.
    fn open_gap(&mut self, start: usize, width: usize, at: usize, count: usize) {
        let from = start + width * at;
        self.words
            .copy_within(from..start + width * count, from + width);
    }
}
