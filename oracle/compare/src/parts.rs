//! Random parts of lines: numbers, expressions, guards, effects, limits. Mostly such as an ordinary graph has; the faulty ones are
//! in faults.rs.

use crate::graph::{Bound, Item, Items, Kind, Limit, Val};
use crate::maker::Maker;

pub fn constant(i: i32) -> Item {
    Item::Const(Val::Int(i))
}

impl Maker<'_> {
    /// A small time, seldom one at the edge.
    pub fn time(&mut self) -> u32 {
        match self.chance.below(40) {
            0 => u32::MAX,
            1 => u32::MAX - 1,
            2 => 1 << 31,
            3..=7 => 0,
            8..=11 => 1,
            _ => self.chance.from_to(2, 12) as u32,
        }
    }

    pub fn integer(&mut self) -> i32 {
        match self.chance.below(30) {
            0 => i32::MAX,
            1 => i32::MIN,
            2 => -1,
            3..=6 => 0,
            7 => self.chance.word() as i32,
            _ => self.chance.from_to(0, 12) as i32 - 4,
        }
    }

    pub fn value(&mut self, kind: Kind) -> Val {
        match kind {
            Kind::Bool => Val::Bool(self.chance.percent(50)),
            Kind::Int => Val::Int(self.integer()),
        }
    }

    pub fn any_value(&mut self) -> Val {
        let kind = if self.chance.percent(50) {
            Kind::Bool
        } else {
            Kind::Int
        };
        self.value(kind)
    }

    fn bound(&mut self) -> Bound {
        let time = self.time();
        if self.chance.percent(60) {
            Bound::Included(time)
        } else {
            Bound::Excluded(time)
        }
    }

    pub fn any_bound(&mut self) -> Bound {
        if self.chance.percent(25) {
            Bound::Absent
        } else {
            self.bound()
        }
    }

    fn clock(&mut self) -> u32 {
        self.chance.below(self.graph.clocks) as u32
    }

    /// A limit of a transition: a lower end, an upper one, both or none.
    pub fn limit(&mut self) -> Limit {
        let clock = self.clock();
        let (low, high) = match self.chance.below(10) {
            0..=3 => (self.bound(), Bound::Absent),
            4..=6 => (Bound::Absent, self.bound()),
            7..=8 => {
                let low = self.chance.from_to(0, 4) as u32;
                let high = low + self.chance.from_to(0, 8) as u32;
                (Bound::Included(low), Bound::Excluded(high))
            }
            _ => (self.any_bound(), self.any_bound()),
        };
        Limit { clock, low, high }
    }

    /// An invariant: mostly an upper end that leaves some time.
    pub fn invariant(&mut self) -> Limit {
        if self.chance.percent(15) {
            return self.limit();
        }
        let clock = self.clock();
        let time = self.chance.from_to(1, 12) as u32;
        let time = if self.chance.percent(5) {
            self.time()
        } else {
            time
        };
        let high = if self.chance.percent(60) {
            Bound::Included(time)
        } else {
            Bound::Excluded(time)
        };
        let low = if self.chance.percent(90) {
            Bound::Absent
        } else {
            Bound::Included(0)
        };
        Limit { clock, low, high }
    }

    pub fn some_limits(&mut self) -> Option<Vec<Limit>> {
        let count = match self.chance.below(20) {
            _ if self.graph.clocks == 0 => 0,
            0..=9 => 0,
            10..=16 => 1,
            17..=18 => 2,
            _ => self.chance.from_to(3, 8),
        };
        self.listed(count, Self::limit)
    }

    pub fn some_invariants(&mut self) -> Option<Vec<Limit>> {
        let count = match self.chance.below(20) {
            _ if self.graph.clocks == 0 => 0,
            0..=9 => 0,
            10..=17 => 1,
            18 => 2,
            _ => self.chance.from_to(3, 8),
        };
        self.listed(count, Self::invariant)
    }

    fn listed(&mut self, count: usize, one: fn(&mut Self) -> Limit) -> Option<Vec<Limit>> {
        if count == 0 && self.chance.percent(50) {
            return None;
        }
        Some((0..count).map(|_| one(self)).collect())
    }

    /// A well-typed expression of a kind, of at most about `size` items.
    pub fn typed(&mut self, kind: Kind, size: usize) -> Items {
        match kind {
            Kind::Bool => self.boolean(size),
            Kind::Int => self.number(size),
        }
    }

    fn leaf(&mut self, kind: Kind) -> Items {
        let vars = self.graph.vars_of(kind);
        if vars.is_empty() || self.chance.percent(35) {
            vec![Item::Const(self.value(kind))]
        } else {
            vec![Item::Var(*self.chance.pick(&vars))]
        }
    }

    fn number(&mut self, size: usize) -> Items {
        if size < 3 || self.chance.percent(20) {
            return self.leaf(Kind::Int);
        }
        if self.chance.percent(10) {
            let mut items = self.number(size - 1);
            items.push(Item::Op("~"));
            return items;
        }
        let mut items = self.number(size / 2);
        let op = *self
            .chance
            .pick(&["+", "+", "+", "-", "-", "*", "/", "%", "%"]);
        if matches!(op, "/" | "%") && self.chance.percent(80) {
            let divisor = *self.chance.pick(&[2, 3, 5, 7, -1, -2, -3]);
            items.push(constant(divisor));
        } else {
            items.extend(self.number(size / 2));
        }
        items.push(Item::Op(op));
        items
    }

    fn boolean(&mut self, size: usize) -> Items {
        if size < 3 || self.chance.percent(15) {
            return self.leaf(Kind::Bool);
        }
        let (op, kind) = *self.chance.pick(&[
            ("!", Kind::Bool),
            ("&", Kind::Bool),
            ("|", Kind::Bool),
            ("|", Kind::Bool),
            ("=", Kind::Bool),
            ("=", Kind::Int),
            ("<", Kind::Int),
            ("<=", Kind::Int),
            ("<=", Kind::Int),
        ]);
        let mut items = self.typed(kind, size / 2);
        if op != "!" {
            items.extend(self.typed(kind, size / 2));
        }
        items.push(Item::Op(op));
        items
    }

    /// Puts a draw in place of some boolean constants and variables.
    pub fn with_draws(&mut self, items: Items) -> Items {
        let bools = self.graph.vars_of(Kind::Bool);
        let boolean = |item: &Item| match item {
            Item::Const(Val::Bool(_)) => true,
            Item::Var(v) => bools.contains(v),
            _ => false,
        };
        let place = |chance: &mut crate::chance::Chance, item: Item| {
            if boolean(&item) && chance.percent(60) {
                Item::Op("?")
            } else {
                item
            }
        };
        items
            .into_iter()
            .map(|item| place(&mut self.chance, item))
            .collect()
    }

    /// A guard, true often enough that graphs stay alive.
    pub fn guard(&mut self) -> Option<Items> {
        let ints = self.graph.vars_of(Kind::Int);
        match self.chance.below(20) {
            0..=9 => None,
            10 => Some(vec![Item::Const(Val::Bool(true))]),
            11..=13 if !ints.is_empty() => {
                let var = Item::Var(*self.chance.pick(&ints));
                let bound = constant(self.chance.from_to(3, 200) as i32);
                let op = if self.chance.percent(50) { "<" } else { "<=" };
                Some(vec![var, bound, Item::Op(op)])
            }
            14 => Some(self.without_value()),
            15 => Some(vec![Item::Const(Val::Bool(false))]),
            _ => {
                let size = self.chance.from_to(3, 14);
                Some(self.boolean(size))
            }
        }
    }

    /// A boolean that has no value, always or for some values of a variable.
    fn without_value(&mut self) -> Items {
        let ints = self.graph.vars_of(Kind::Int);
        if !ints.is_empty() && self.chance.percent(50) {
            // 7 / v <= 7: no value at v = 0.
            let var = Item::Var(*self.chance.pick(&ints));
            return vec![constant(7), var, Item::Op("/"), constant(7), Item::Op("<=")];
        }
        let mut items = self.broken_number();
        items.extend([constant(0), Item::Op("<")]);
        if self.chance.percent(50) {
            items.extend([Item::Const(Val::Bool(true)), Item::Op("|")]);
        }
        items
    }

    /// A number that has no value, or just has one.
    pub fn broken_number(&mut self) -> Items {
        let (min, max) = (i32::MIN, i32::MAX);
        let (a, b, op) = *self.chance.pick(&[
            (1, 0, "/"),
            (1, 0, "%"),
            (max, 1, "+"),
            (min, 1, "-"),
            (65536, 32768, "*"),
            (-65536, 32768, "*"),
            (min, -1, "/"),
            (min, -1, "%"),
            (min, -1, "*"),
            (max, -1, "*"),
        ]);
        if self.chance.percent(10) {
            return vec![constant(min), Item::Op("~")];
        }
        vec![constant(a), constant(b), Item::Op(op)]
    }

    /// What an effect assigns to a variable of a kind, or a send carries.
    pub fn assigned(&mut self, kind: Kind) -> Items {
        let size = self.chance.from_to(1, 12);
        match (kind, self.chance.below(10)) {
            (Kind::Bool, 0..=4) => {
                let items = self.boolean(size);
                self.with_draws(items)
            }
            (Kind::Bool, 5) => vec![Item::Op("?")],
            (Kind::Bool, _) => self.boolean(size),
            (Kind::Int, 0..=6) => {
                // Small numbers stay small.
                let mut items = self.number(5);
                items.extend([constant(self.chance.from_to(2, 9) as i32), Item::Op("%")]);
                items
            }
            (Kind::Int, 7) if self.chance.percent(25) => self.broken_number(),
            (Kind::Int, _) => self.number(size),
        }
    }
}
