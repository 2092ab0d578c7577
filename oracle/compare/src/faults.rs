//! Lines that building refuses: each argument may be wrong for itself, so that every order of the checks is met.

use crate::graph::{Act, Bound, Build, EPSILON, Item, Items, Kind, Limit, OPS, Val};
use crate::maker::Maker;
use crate::parts::constant;

impl Maker<'_> {
    /// A builder's line in which about each third argument is wrong.
    pub fn faulty(&mut self) -> Build {
        match self.chance.below(20) {
            0 => Build::Var(self.any_value()),
            1 => Build::Clock,
            2 => Build::Action,
            3..=4 => Build::Send(self.faulty_message()),
            5 => Build::Receive(self.faulty_vars()),
            6..=7 => Build::Reset(self.maybe_action(), self.maybe_clock()),
            8..=10 => self.faulty_effect(),
            11 => Build::Location(self.maybe_limits()),
            12 => Build::Process(self.maybe_location()),
            13 => Build::Initial(self.maybe_limits()),
            14..=17 => Build::Transition(
                self.maybe_location(),
                self.maybe_action(),
                self.maybe_location(),
                self.maybe_guard(),
                self.maybe_limits(),
            ),
            _ => Build::Auto(
                self.maybe_location(),
                self.maybe_location(),
                self.maybe_guard(),
                self.maybe_limits(),
            ),
        }
    }

    fn maybe(&mut self, count: usize) -> u32 {
        if count == 0 || self.chance.percent(20) {
            self.odd_number(count)
        } else {
            self.chance.below(count) as u32
        }
    }

    pub fn maybe_location(&mut self) -> u32 {
        self.maybe(self.graph.locations.len())
    }

    pub fn maybe_clock(&mut self) -> u32 {
        self.maybe(self.graph.clocks)
    }

    pub fn maybe_var(&mut self) -> u32 {
        self.maybe(self.graph.vars.len())
    }

    pub fn maybe_action(&mut self) -> u32 {
        if self.chance.percent(12) {
            EPSILON
        } else {
            self.maybe(self.graph.actions.len())
        }
    }

    /// Limits, some with an unknown clock, some over their size, some both.
    pub fn maybe_limits(&mut self) -> Option<Vec<Limit>> {
        let count = match self.chance.below(10) {
            0..=1 => return None,
            2..=3 => 0,
            4..=6 => 1,
            7 => self.chance.from_to(2, 7),
            8 => 8,
            _ => self.chance.from_to(9, 16),
        };
        Some(self.limits(count))
    }

    pub fn limits(&mut self, count: usize) -> Vec<Limit> {
        let wrong = self.chance.percent(25);
        let mut limits = vec![];
        for _ in 0..count {
            let clock = if wrong || self.graph.clocks == 0 {
                self.maybe_clock()
            } else {
                self.chance.below(self.graph.clocks) as u32
            };
            limits.push(Limit {
                clock,
                low: self.any_bound(),
                high: self.any_bound(),
            });
        }
        limits
    }

    pub fn faulty_message(&mut self) -> Vec<Items> {
        let count = *self.chance.pick(&[0, 1, 1, 2, 3, 4, 4, 5, 6]);
        (0..count).map(|_| self.maybe_expression()).collect()
    }

    pub fn faulty_vars(&mut self) -> Vec<u32> {
        let count = *self.chance.pick(&[0, 1, 1, 2, 3, 4, 4, 5, 6]);
        (0..count).map(|_| self.maybe_var()).collect()
    }

    fn faulty_effect(&mut self) -> Build {
        let (action, var) = (self.maybe_action(), self.maybe_var());
        let items = match self.graph.vars.get(var as usize) {
            // Of the right kind, so that the later checks are reached.
            Some(val) if self.chance.percent(60) => self.assigned(val.kind()),
            _ => self.maybe_expression(),
        };
        Build::Effect(action, var, items)
    }

    fn maybe_guard(&mut self) -> Option<Items> {
        match self.chance.below(10) {
            0..=1 => None,
            2..=4 => self.guard(),
            5 => Some(vec![Item::Op("?")]),
            6 => Some(self.typed(Kind::Int, 5)),
            _ => Some(self.maybe_expression()),
        }
    }

    /// An expression of some kind; ill-typed, too long or too deep ones among them.
    pub fn maybe_expression(&mut self) -> Items {
        let kind = if self.chance.percent(50) {
            Kind::Bool
        } else {
            Kind::Int
        };
        match self.chance.below(14) {
            0..=4 => self.assigned(kind),
            5 => {
                let length = *self.chance.pick(&[62, 63, 64, 65, 66, 99, 100]);
                self.long(kind, length)
            }
            6 => {
                let depth = *self.chance.pick(&[15, 16, 17, 18, 32]);
                self.deep(kind, depth)
            }
            7 => self.junk_items(),
            _ => self.ill_typed(),
        }
    }

    fn ill_typed(&mut self) -> Items {
        let bool_leaf = Item::Const(Val::Bool(self.chance.percent(50)));
        let number = constant(self.integer());
        let unknown = Item::Var(self.odd_number(self.graph.vars.len()));
        let known = Item::Var(self.chance.below(self.graph.vars.len()) as u32);
        let mut items = match self.chance.below(16) {
            0 => vec![],
            1 => vec![unknown],
            2 => vec![number, unknown, Item::Op("+")],
            3 => vec![Item::Nothing],
            4 => vec![bool_leaf, Item::Nothing, Item::Op("&")],
            5 => vec![Item::Op("!")],
            6 => vec![number, Item::Op("+")],
            7 => vec![number, number],
            8 => vec![number, Item::Op("!")],
            9 => vec![bool_leaf, Item::Op("~")],
            10 => vec![bool_leaf, number, Item::Op("=")],
            11 => vec![number, bool_leaf, Item::Op("<")],
            12 => vec![known, bool_leaf, Item::Op("&")],
            13 => vec![known, number, Item::Op("*")],
            14 => vec![Item::Op("?"), number, Item::Op("<=")],
            _ => vec![bool_leaf, bool_leaf, Item::Op("<")],
        };
        if self.chance.percent(20) {
            // Deep as well: 6 comes before that 28.
            let mut deep = vec![bool_leaf; self.chance.from_to(16, 20)];
            deep.extend(items);
            items = deep;
        }
        items
    }

    pub fn operation(&mut self, ops: &[&'static str]) -> Item {
        Item::Op(ops[self.chance.below(ops.len())])
    }

    fn junk_items(&mut self) -> Items {
        let count = self.chance.from_to(0, 70);
        let mut items = vec![];
        for _ in 0..count {
            items.push(match self.chance.below(20) {
                0..=2 => Item::Const(self.any_value()),
                3..=5 => Item::Var(self.maybe_var()),
                6 => Item::Nothing,
                _ => self.operation(&OPS),
            });
        }
        items
    }

    /// A well-typed expression of exactly so many items (of one more where an even number cannot be had).
    pub fn long(&mut self, kind: Kind, length: usize) -> Items {
        let (leaf, unary, binary) = match kind {
            Kind::Bool => (Item::Const(Val::Bool(true)), "!", "&"),
            Kind::Int => (constant(1), "~", "+"),
        };
        let mut items = vec![leaf];
        if length.is_multiple_of(2) {
            items.push(Item::Op(unary));
        }
        while items.len() + 2 <= length {
            items.extend([leaf, Item::Op(binary)]);
        }
        items
    }

    /// A well-typed expression with so many operands waiting.
    pub fn deep(&mut self, kind: Kind, depth: usize) -> Items {
        let (leaf, binary) = match kind {
            Kind::Bool => (Item::Const(Val::Bool(true)), "|"),
            Kind::Int => (constant(0), "-"),
        };
        let mut items = vec![leaf; depth];
        items.extend(vec![Item::Op(binary); depth.saturating_sub(1)]);
        items
    }

    /// A boolean with so many draws, two items for each but the first.
    pub fn drawing(&mut self, draws: usize) -> Items {
        let mut items = vec![Item::Op("?"); draws.min(1)];
        for _ in 1..draws {
            let both = self.operation(&["&", "|", "="]);
            items.extend([Item::Op("?"), both]);
        }
        items
    }

    /// Refused lines between two sums, which have to be equal.
    pub fn faults_between_sums(&mut self, count: usize) {
        let sums = self.chance.percent(50);
        if sums {
            self.say("sum g");
        }
        for _ in 0..count {
            let build = self.faulty();
            self.build(build);
            if self.full() {
                return;
            }
        }
        if sums {
            self.say("sum g");
        }
    }

    /// A line with several faults at once, in which only the first one counts.
    pub fn all_wrong(&mut self) -> Build {
        let nine = (0..9)
            .map(|_| Limit {
                clock: self.maybe_clock(),
                low: Bound::Absent,
                high: Bound::Absent,
            })
            .collect::<Vec<_>>();
        let unknown = self.graph.actions.len() as u32;
        let bad = if self.chance.percent(50) {
            self.ill_typed()
        } else {
            self.long(Kind::Bool, 65)
        };
        match self.chance.below(6) {
            0 => Build::Effect(EPSILON, 99, bad),
            1 => Build::Effect(unknown, 99, bad),
            2 => Build::Reset(EPSILON, 99),
            3 => Build::Reset(unknown, 99),
            4 => Build::Initial(Some(nine)),
            _ => {
                let (pre, post) = (self.maybe_location(), self.maybe_location());
                let action = if self.chance.percent(50) {
                    self.maybe_action()
                } else {
                    unknown
                };
                Build::Transition(pre, action, post, Some(bad), Some(nine))
            }
        }
    }

    /// Actions of a kind: 0 plain, 1 send, 2 receive.
    pub fn actions_of(&self, kind: usize) -> Vec<u32> {
        let is = |act: &Act| match act {
            Act::Plain { .. } => kind == 0,
            Act::Send(_) => kind == 1,
            Act::Receive(_) => kind == 2,
        };
        (0..self.graph.actions.len())
            .filter(|a| is(&self.graph.actions[*a]))
            .map(|a| a as u32)
            .collect()
    }
}
