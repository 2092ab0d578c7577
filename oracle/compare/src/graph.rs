//! What the generator knows of the graph that it has built: the parts of accepted lines, their text as tokens, and the words
//! that they have in the graph's table (docs/LAYOUT.md), which `poke` lines need.

pub const EPSILON: u32 = u32::MAX;
pub const WORDS: usize = 46_890;

#[derive(Clone, Copy, PartialEq, Eq, Debug)]
pub enum Kind {
    Bool,
    Int,
}

#[derive(Clone, Copy, PartialEq, Eq, Debug)]
pub enum Val {
    Bool(bool),
    Int(i32),
}

impl Val {
    pub fn kind(self) -> Kind {
        match self {
            Val::Bool(_) => Kind::Bool,
            Val::Int(_) => Kind::Int,
        }
    }

    pub fn text(self) -> String {
        match self {
            Val::Bool(b) => format!("b{}", b as u8),
            Val::Int(i) => format!("i{i}"),
        }
    }

    pub fn word(self) -> u64 {
        match self {
            Val::Bool(b) => b as u64,
            Val::Int(i) => i as u32 as u64,
        }
    }
}

/// The operations, in the order of their words 1 to 13.
pub const OPS: [&str; 13] = [
    "!", "&", "|", "~", "+", "-", "*", "/", "%", "=", "<", "<=", "?",
];

#[derive(Clone, Copy, PartialEq, Eq, Debug)]
pub enum Item {
    Const(Val),
    Var(u32),
    Op(&'static str),
    /// An item that is none.
    Nothing,
}

impl Item {
    pub fn text(self) -> String {
        match self {
            Item::Const(Val::Bool(b)) => if b { "t" } else { "f" }.to_string(),
            Item::Const(Val::Int(i)) => format!("#{i}"),
            Item::Var(v) => format!("v{v}"),
            Item::Op(op) => op.to_string(),
            Item::Nothing => "x".to_string(),
        }
    }

    pub fn word(self) -> u64 {
        match self {
            Item::Const(Val::Bool(b)) => 14 | (b as u64) << 8,
            Item::Const(Val::Int(i)) => 15 | (i as u32 as u64) << 8,
            Item::Var(v) => 16 | (v as u64) << 8,
            Item::Op(op) => OPS
                .iter()
                .position(|o| *o == op)
                .map_or(0, |k| k as u64 + 1),
            Item::Nothing => 0,
        }
    }
}

pub type Items = Vec<Item>;

pub fn expression(items: &[Item]) -> String {
    let mut text = "{".to_string();
    for item in items {
        text.push(' ');
        text.push_str(&item.text());
    }
    text + " }"
}

#[derive(Clone, Copy, PartialEq, Eq, Debug)]
pub enum Bound {
    Absent,
    Included(u32),
    Excluded(u32),
}

impl Bound {
    pub fn text(self) -> String {
        match self {
            Bound::Absent => "*".to_string(),
            Bound::Included(n) => format!("={n}"),
            Bound::Excluded(n) => format!("!{n}"),
        }
    }

    pub fn word(self) -> u64 {
        match self {
            Bound::Absent => 0,
            Bound::Included(n) => 4 * n as u64 + 1,
            Bound::Excluded(n) => 4 * n as u64 + 2,
        }
    }
}

#[derive(Clone, Copy, PartialEq, Eq, Debug)]
pub struct Limit {
    pub clock: u32,
    pub low: Bound,
    pub high: Bound,
}

pub fn limits_text(limits: &[Limit]) -> String {
    let mut text = "[".to_string();
    for limit in limits {
        text += &format!(
            " {} {} {}",
            limit.clock,
            limit.low.text(),
            limit.high.text()
        );
    }
    text + " ]"
}

pub fn action_text(action: u32) -> String {
    if action == EPSILON {
        "e".to_string()
    } else {
        action.to_string()
    }
}

pub fn posts_text(posts: &[u32]) -> String {
    let mut text = "(".to_string();
    for post in posts {
        text += &format!(" {post}");
    }
    text + " )"
}

#[derive(Clone, PartialEq, Eq, Debug)]
pub enum Act {
    Plain {
        resets: Vec<u32>,
        effects: Vec<(u32, Items)>,
    },
    Send(Vec<Items>),
    Receive(Vec<u32>),
}

#[derive(Clone, PartialEq, Eq, Debug)]
pub struct Transition {
    pub pre: u32,
    pub action: u32,
    pub post: u32,
    pub guard: Option<Items>,
    pub limits: Vec<Limit>,
}

impl Transition {
    pub fn key(&self) -> u64 {
        key(self.pre, self.action, self.post)
    }
}

/// The key of a transition. Of a pre-location that no table can have, bits are lost: it then is some other bad word.
pub fn key(pre: u32, action: u32, post: u32) -> u64 {
    (((pre as u64) << 32) + action as u64)
        .wrapping_mul(32)
        .wrapping_add(post as u64)
}

/// A line that builds.
#[derive(Clone, PartialEq, Eq, Debug)]
pub enum Build {
    Var(Val),
    Clock,
    Action,
    Send(Vec<Items>),
    Receive(Vec<u32>),
    Reset(u32, u32),
    Effect(u32, u32, Items),
    /// Without a list it is the call without limits.
    Location(Option<Vec<Limit>>),
    Process(u32),
    Initial(Option<Vec<Limit>>),
    Transition(u32, u32, u32, Option<Items>, Option<Vec<Limit>>),
    Auto(u32, u32, Option<Items>, Option<Vec<Limit>>),
}

fn guard_text(guard: &Option<Items>) -> String {
    guard
        .as_ref()
        .map_or("-".to_string(), |items| expression(items))
}

fn tail_text(limits: &Option<Vec<Limit>>) -> String {
    limits
        .as_ref()
        .map_or(String::new(), |limits| format!(" {}", limits_text(limits)))
}

impl Build {
    pub fn text(&self) -> String {
        match self {
            Build::Var(val) => format!("g var {}", val.text()),
            Build::Clock => "g clock".to_string(),
            Build::Action => "g action".to_string(),
            Build::Send(list) => list
                .iter()
                .fold("g send".to_string(), |t, e| t + " " + &expression(e)),
            Build::Receive(vars) => vars
                .iter()
                .fold("g receive".to_string(), |t, v| format!("{t} {v}")),
            Build::Reset(a, c) => format!("g reset {} {c}", action_text(*a)),
            Build::Effect(a, v, items) => {
                format!("g effect {} {v} {}", action_text(*a), expression(items))
            }
            Build::Location(limits) => "g location".to_string() + &tail_text(limits),
            Build::Process(l) => format!("g process {l}"),
            Build::Initial(limits) => "g initial".to_string() + &tail_text(limits),
            Build::Transition(pre, a, post, guard, limits) => {
                format!(
                    "g transition {pre} {} {post} {}{}",
                    action_text(*a),
                    guard_text(guard),
                    tail_text(limits)
                )
            }
            Build::Auto(pre, post, guard, limits) => {
                format!(
                    "g auto {pre} {post} {}{}",
                    guard_text(guard),
                    tail_text(limits)
                )
            }
        }
    }
}

#[derive(Clone, Default, PartialEq, Eq, Debug)]
pub struct Graph {
    pub vars: Vec<Val>,
    pub clocks: usize,
    pub locations: Vec<Vec<Limit>>,
    pub actions: Vec<Act>,
    pub processes: Vec<u32>,
    pub transitions: Vec<Transition>,
}

fn ordered(limits: &Option<Vec<Limit>>) -> Vec<Limit> {
    let mut limits = limits.clone().unwrap_or_default();
    limits.sort_by_key(|limit| limit.clock);
    limits
}

impl Graph {
    /// Takes over an accepted line.
    pub fn apply(&mut self, build: &Build) {
        match build {
            Build::Var(val) => self.vars.push(*val),
            Build::Clock => self.clocks += 1,
            Build::Action => self.actions.push(Act::Plain {
                resets: vec![],
                effects: vec![],
            }),
            Build::Send(list) => self.actions.push(Act::Send(list.clone())),
            Build::Receive(vars) => self.actions.push(Act::Receive(vars.clone())),
            Build::Reset(a, c) => {
                if let Some(Act::Plain { resets, .. }) = self.actions.get_mut(*a as usize) {
                    let at = resets.partition_point(|r| r <= c);
                    resets.insert(at, *c);
                }
            }
            Build::Effect(a, v, items) => {
                if let Some(Act::Plain { effects, .. }) = self.actions.get_mut(*a as usize) {
                    effects.push((*v, items.clone()));
                }
            }
            Build::Location(limits) => self.locations.push(ordered(limits)),
            Build::Process(l) => self.processes.push(*l),
            Build::Initial(limits) => {
                self.processes.push(self.locations.len() as u32);
                self.locations.push(ordered(limits));
            }
            Build::Transition(pre, a, post, guard, limits) => {
                self.insert(*pre, *a, *post, guard, limits)
            }
            Build::Auto(pre, post, guard, limits) => {
                self.insert(*pre, EPSILON, *post, guard, limits)
            }
        }
    }

    fn insert(
        &mut self,
        pre: u32,
        action: u32,
        post: u32,
        guard: &Option<Items>,
        limits: &Option<Vec<Limit>>,
    ) {
        let new = Transition {
            pre,
            action,
            post,
            guard: guard.clone(),
            limits: ordered(limits),
        };
        let at = self.transitions.partition_point(|t| t.key() <= new.key());
        self.transitions.insert(at, new);
    }

    pub fn vars_of(&self, kind: Kind) -> Vec<u32> {
        (0..self.vars.len())
            .filter(|v| self.vars[*v].kind() == kind)
            .map(|v| v as u32)
            .collect()
    }

    /// The used words of the table, each with its place. `poke` lines keep to these, since what stands in unused words is
    /// a matter of layout and history.
    pub fn words(&self) -> Vec<Word> {
        let mut out = Words { list: vec![] };
        let counts = [
            self.vars.len(),
            self.clocks,
            self.locations.len(),
            self.actions.len(),
            self.processes.len(),
            self.transitions.len(),
        ];
        for (k, n) in counts.into_iter().enumerate() {
            out.put(k, n as u64, Part::Count);
        }
        for (v, val) in self.vars.iter().enumerate() {
            out.put(6 + v, (val.kind() == Kind::Int) as u64, Part::Number);
            out.put(22 + v, val.word(), Part::Value);
        }
        for (p, place) in self.processes.iter().enumerate() {
            out.put(38 + p, *place as u64, Part::Number);
        }
        for (l, invariants) in self.locations.iter().enumerate() {
            out.put(42 + l, invariants.len() as u64, Part::Length);
            out.limits(128 + l, invariants);
        }
        for (a, act) in self.actions.iter().enumerate() {
            out.action(a, act);
        }
        for (k, t) in self.transitions.iter().enumerate() {
            out.put(1706 + 3 * k, t.key(), Part::Key);
            out.put(
                1707 + 3 * k,
                t.guard.as_ref().map_or(0, |g| g.len() as u64),
                Part::Length,
            );
            out.put(1708 + 3 * k, t.limits.len() as u64, Part::Length);
            out.limits(k, &t.limits);
            out.items(5930 + 64 * k, t.guard.as_deref().unwrap_or(&[]));
        }
        out.list
    }
}

/// What a word says, so that a `poke` can put another of its sort there.
#[derive(Clone, Copy, PartialEq, Eq, Debug)]
pub enum Part {
    Count,
    Length,
    Number,
    Value,
    Key,
    Bound,
    Item,
}

#[derive(Clone, Copy, PartialEq, Eq, Debug)]
pub struct Word {
    pub place: usize,
    pub word: u64,
    pub part: Part,
}

struct Words {
    list: Vec<Word>,
}

impl Words {
    fn put(&mut self, place: usize, word: u64, part: Part) {
        self.list.push(Word { place, word, part });
    }

    fn limits(&mut self, group: usize, limits: &[Limit]) {
        for (i, limit) in limits.iter().enumerate() {
            let at = 2090 + 24 * group + 3 * i;
            self.put(at, limit.clock as u64, Part::Number);
            self.put(at + 1, limit.low.word(), Part::Bound);
            self.put(at + 2, limit.high.word(), Part::Bound);
        }
    }

    fn items(&mut self, at: usize, items: &[Item]) {
        for (i, item) in items.iter().enumerate() {
            self.put(at + i, item.word(), Part::Item);
        }
    }

    fn action(&mut self, a: usize, act: &Act) {
        let at = 74 + 51 * a;
        let (kind, resets, count) = match act {
            Act::Plain { resets, effects } => (0, resets.as_slice(), effects.len()),
            Act::Send(list) => (1, [].as_slice(), list.len()),
            Act::Receive(vars) => (2, [].as_slice(), vars.len()),
        };
        self.put(at, kind, Part::Number);
        self.put(at + 1, resets.len() as u64, Part::Length);
        self.put(at + 2, count as u64, Part::Length);
        for (i, clock) in resets.iter().enumerate() {
            self.put(at + 3 + i, *clock as u64, Part::Number);
        }
        let slot = |e: usize| 14122 + 64 * (32 * e + a);
        match act {
            Act::Plain { effects, .. } => {
                for (e, (var, items)) in effects.iter().enumerate() {
                    self.put(at + 19 + e, *var as u64, Part::Number);
                    self.put(at + 35 + e, items.len() as u64, Part::Length);
                    self.items(slot(e), items);
                }
            }
            Act::Send(list) => {
                for (e, items) in list.iter().enumerate() {
                    self.put(at + 35 + e, items.len() as u64, Part::Length);
                    self.items(slot(e), items);
                }
            }
            Act::Receive(vars) => {
                for (e, var) in vars.iter().enumerate() {
                    self.put(at + 19 + e, *var as u64, Part::Number);
                }
            }
        }
    }
}

#[cfg(test)]
mod tests {
    use super::*;

    fn small() -> Graph {
        let mut g = Graph::default();
        let one = Limit {
            clock: 1,
            low: Bound::Absent,
            high: Bound::Included(5),
        };
        let zero = Limit {
            clock: 0,
            low: Bound::Excluded(3),
            high: Bound::Absent,
        };
        for build in [
            Build::Var(Val::Int(-1)),
            Build::Clock,
            Build::Clock,
            Build::Action,
            Build::Initial(None),
            Build::Location(Some(vec![one, zero])),
            Build::Reset(0, 1),
            Build::Reset(0, 0),
            Build::Effect(
                0,
                0,
                vec![Item::Var(0), Item::Const(Val::Int(1)), Item::Op("+")],
            ),
            Build::Auto(0, 1, None, None),
            Build::Transition(
                0,
                0,
                1,
                Some(vec![Item::Const(Val::Bool(true))]),
                Some(vec![one]),
            ),
        ] {
            g.apply(&build);
        }
        g
    }

    #[test]
    fn words_stand_where_the_layout_says() {
        let words = small().words();
        let at = |place: usize| words.iter().find(|w| w.place == place).map(|w| w.word);
        assert_eq!(
            (0..6).map(|k| at(k).unwrap()).collect::<Vec<_>>(),
            [1, 2, 2, 1, 1, 2]
        );
        assert_eq!((at(6), at(22)), (Some(1), Some(0xFFFF_FFFF)));
        assert_eq!((at(42), at(43)), (Some(0), Some(2)));
        // The invariants in the order of their clocks.
        assert_eq!(
            (at(5162 + 24), at(5163 + 24), at(5164 + 24)),
            (Some(0), Some(14), Some(0))
        );
        assert_eq!(
            (at(5165 + 24), at(5166 + 24), at(5167 + 24)),
            (Some(1), Some(0), Some(21))
        );
        assert_eq!(
            (at(75), at(76), at(77), at(78)),
            (Some(2), Some(1), Some(0), Some(1))
        );
        // EPSILON comes after every action.
        assert_eq!((at(1706), at(1709)), (Some(1), Some(0xFFFF_FFFF * 32 + 1)));
        assert_eq!(
            (at(14122), at(14123), at(14124)),
            (Some(16), Some(15 | 1 << 8), Some(5))
        );
    }

    #[test]
    fn equal_transitions_stand_as_added() {
        let mut g = small();
        g.apply(&Build::Transition(0, 0, 1, None, None));
        assert!(g.transitions[0].guard.is_some() && g.transitions[1].guard.is_none());
    }

    #[test]
    fn lines_have_their_text() {
        let limit = Limit {
            clock: 1,
            low: Bound::Absent,
            high: Bound::Excluded(7),
        };
        let guard = vec![Item::Const(Val::Int(-3)), Item::Var(2), Item::Op("<=")];
        let line = Build::Transition(0, EPSILON, 1, Some(guard), Some(vec![limit]));
        assert_eq!(line.text(), "g transition 0 e 1 { #-3 v2 <= } [ 1 * !7 ]");
        assert_eq!(Build::Send(vec![]).text(), "g send");
        assert_eq!(Build::Location(Some(vec![])).text(), "g location [ ]");
    }
}
