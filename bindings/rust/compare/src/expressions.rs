//! Random expressions, as the crate's tree and as the postfix items that the Rust's test grammar takes.

use crate::chance::Chance;
use njunnemar::channel_system::Var;
use njunnemar::{BooleanExpr, Expression, IntegerExpr, Type, Val};
use scan_core::program_graph::Var as TheirVar;
use scan_core::{Binary, Item, Unary};

pub type TheirItems = Vec<Item<TheirVar>>;

pub fn their_val(val: Val) -> scan_core::Val {
    match val {
        Val::Boolean(b) => scan_core::Val::Boolean(b),
        Val::Integer(n) => scan_core::Val::Integer(n),
    }
}

pub fn their_type(r#type: Type) -> scan_core::Type {
    match r#type {
        Type::Boolean => scan_core::Type::Boolean,
        Type::Integer => scan_core::Type::Integer,
    }
}

fn their_var(var: Var, r#type: Type) -> Item<TheirVar> {
    let number = u32::from(var.in_graph()) as u16;
    Item::Var(TheirVar::numbered(number), their_type(r#type))
}

/// Makes expressions over the variables of a graph.
pub struct Maker<'a> {
    pub chance: &'a mut Chance,
    pub vars: &'a [(Var, Type)],
    pub draws: bool,
}

impl Maker<'_> {
    /// A variable of this type, or now and then any.
    fn var(&mut self, r#type: Type) -> Option<Var> {
        let any = self.chance.percent(2);
        let fit: Vec<Var> = self.vars.iter().filter(|(_, t)| any || *t == r#type).map(|(v, _)| *v).collect();
        (!fit.is_empty()).then(|| *self.chance.pick(&fit))
    }

    pub fn expression(&mut self, r#type: Type, items: &mut TheirItems) -> Expression<Var> {
        let depth = self.chance.below(3);
        match r#type {
            Type::Boolean => self.boolean(depth, items).into(),
            Type::Integer => self.integer(depth, items).into(),
        }
    }

    pub fn boolean(&mut self, depth: usize, items: &mut TheirItems) -> BooleanExpr<Var> {
        let kind = self.chance.below(if depth == 0 { 4 } else { 10 });
        if kind < 2
            && let Some(var) = self.var(Type::Boolean)
        {
            items.push(their_var(var, Type::Boolean));
            return BooleanExpr::Var(var);
        }
        if kind == 2 && self.draws {
            items.push(Item::Draw);
            return BooleanExpr::Draw;
        }
        if kind < 4 {
            let constant = self.chance.percent(60);
            items.push(Item::Const(scan_core::Val::Boolean(constant)));
            return BooleanExpr::Const(constant);
        }
        if kind == 4 {
            let operand = self.boolean(depth - 1, items);
            items.push(Item::Unary(Unary::Not));
            return !operand;
        }
        if kind < 7 {
            let (l, r) = (self.boolean(depth - 1, items), self.boolean(depth - 1, items));
            let (operation, tree) = match self.chance.below(3) {
                0 => (Binary::And, l & r),
                1 => (Binary::Or, l | r),
                _ => (Binary::Equal, l.equal_to(r)),
            };
            items.push(Item::Binary(operation));
            return tree;
        }
        let (l, r) = (self.integer(depth - 1, items), self.integer(depth - 1, items));
        let (operation, tree) = match self.chance.below(3) {
            0 => (Binary::Equal, l.equal_to(r)),
            1 => (Binary::Less, l.less_than(r)),
            _ => (Binary::LessEq, l.less_than_or_equal_to(r)),
        };
        items.push(Item::Binary(operation));
        tree
    }

    pub fn integer(&mut self, depth: usize, items: &mut TheirItems) -> IntegerExpr<Var> {
        let kind = self.chance.below(if depth == 0 { 5 } else { 10 });
        if kind < 3
            && let Some(var) = self.var(Type::Integer)
        {
            items.push(their_var(var, Type::Integer));
            return IntegerExpr::Var(var);
        }
        if kind < 5 {
            let constant = if self.chance.percent(3) { i32::MIN } else { self.chance.below(9) as i32 - 3 };
            items.push(Item::Const(scan_core::Val::Integer(constant)));
            return IntegerExpr::Const(constant);
        }
        if kind == 5 {
            let operand = self.integer(depth - 1, items);
            items.push(Item::Unary(Unary::Negate));
            return -operand;
        }
        let (l, r) = (self.integer(depth - 1, items), self.integer(depth - 1, items));
        let (operation, tree) = match self.chance.below(8) {
            0..3 => (Binary::Add, l + r),
            3..5 => (Binary::Sub, l - r),
            5 => (Binary::Mul, l * r),
            6 => (Binary::Div, l / r),
            _ => (Binary::Rem, l % r),
        };
        items.push(Item::Binary(operation));
        tree
    }
}
