//! The postfix items of a tree, as the archive's words: the operation in the low byte, the payload above it.

use super::{BooleanExpr, Expression, Integer, IntegerExpr, Type, TypeError, Val};

const NO_ITEM: u64 = 0;
const NOT: u64 = 1;
const AND: u64 = 2;
const OR: u64 = 3;
const NEGATE: u64 = 4;
const ADD: u64 = 5;
const SUBTRACT: u64 = 6;
const MULTIPLY: u64 = 7;
const DIVIDE: u64 = 8;
const REMAINDER: u64 = 9;
const EQUAL: u64 = 10;
const LESS: u64 = 11;
const LESS_OR_EQUAL: u64 = 12;
const DRAW: u64 = 13;
const TRUTH: u64 = 14;
const NUMBER: u64 = 15;
const VARIABLE: u64 = 16;

/// What is known of a variable: its number, and its type if the graph has it.
pub(crate) type Found = (u32, Option<Type>);

/// The words of an expression, and what stood against them while they were written down.
pub(crate) struct Items {
    words: Vec<u64>,
    constant: bool,
    fault: Option<TypeError>,
}

impl Items {
    /// The items of an expression. A variable that has another type in the graph than the tree says becomes an item that is
    /// none: the archive then answers 6 where the rules have it.
    pub(crate) fn of<V: Copy>(tree: &Expression<V>, find: &dyn Fn(V) -> Option<Found>) -> Self {
        let mut items = Items::none();
        match tree {
            Expression::Boolean(tree) => items.boolean(tree, find),
            Expression::Integer(tree) => items.integer(tree, find),
        }
        items
    }

    /// The items of a guard.
    pub(crate) fn of_guard<V: Copy>(tree: &BooleanExpr<V>, find: &dyn Fn(V) -> Option<Found>) -> Self {
        let mut items = Items::none();
        items.boolean(tree, find);
        if items.words.contains(&DRAW) {
            items.fault.get_or_insert(TypeError::Draws);
        }
        items
    }

    fn none() -> Self {
        Items { words: vec![], constant: true, fault: None }
    }

    pub(crate) fn words(&self) -> &[u64] {
        &self.words
    }

    pub(crate) fn is_constant(&self) -> bool {
        self.constant
    }

    /// Why the archive answered 6. The operands of a tree fit, so it is a variable or a draw.
    pub(crate) fn fault(&self) -> TypeError {
        self.fault.unwrap_or(TypeError::TypeMismatch)
    }

    pub(crate) fn found_fault(&self) -> Option<TypeError> {
        self.fault
    }

    fn var<V: Copy>(&mut self, var: V, asked: Type, find: &dyn Fn(V) -> Option<Found>) {
        self.constant = false;
        let word = match find(var) {
            Some((number, Some(known))) if known == asked => variable(number),
            Some((_, Some(_))) => {
                self.fault.get_or_insert(TypeError::TypeMismatch);
                NO_ITEM
            }
            Some((number, None)) => {
                self.fault.get_or_insert(TypeError::UnknownVar);
                variable(number)
            }
            None => {
                self.fault.get_or_insert(TypeError::UnknownVar);
                NO_ITEM
            }
        };
        self.words.push(word);
    }

    fn boolean<V: Copy>(&mut self, tree: &BooleanExpr<V>, find: &dyn Fn(V) -> Option<Found>) {
        match tree {
            BooleanExpr::Const(b) => self.words.push(u64::from(*b) << 8 | TRUTH),
            BooleanExpr::Var(var) => self.var(*var, Type::Boolean, find),
            BooleanExpr::Draw => {
                self.constant = false;
                self.words.push(DRAW);
            }
            BooleanExpr::Not(operand) => {
                self.boolean(operand, find);
                self.words.push(NOT);
            }
            BooleanExpr::And(operands) => self.booleans(operands, AND, find),
            BooleanExpr::Or(operands) => self.booleans(operands, OR, find),
            BooleanExpr::Equal(operands) => self.booleans(operands, EQUAL, find),
            BooleanExpr::IntEqual(operands) => self.integers(operands, EQUAL, find),
            BooleanExpr::IntLess(operands) => self.integers(operands, LESS, find),
            BooleanExpr::IntLessEq(operands) => self.integers(operands, LESS_OR_EQUAL, find),
        }
    }

    fn integer<V: Copy>(&mut self, tree: &IntegerExpr<V>, find: &dyn Fn(V) -> Option<Found>) {
        match tree {
            IntegerExpr::Const(n) => self.words.push(number(*n)),
            IntegerExpr::Var(var) => self.var(*var, Type::Integer, find),
            IntegerExpr::Opposite(operand) => {
                self.integer(operand, find);
                self.words.push(NEGATE);
            }
            IntegerExpr::Add(operands) => self.integers(operands, ADD, find),
            IntegerExpr::Sub(operands) => self.integers(operands, SUBTRACT, find),
            IntegerExpr::Mul(operands) => self.integers(operands, MULTIPLY, find),
            IntegerExpr::Div(operands) => self.integers(operands, DIVIDE, find),
            IntegerExpr::Rem(operands) => self.integers(operands, REMAINDER, find),
        }
    }

    fn booleans<V: Copy>(&mut self, operands: &(BooleanExpr<V>, BooleanExpr<V>), operation: u64, find: &dyn Fn(V) -> Option<Found>) {
        self.boolean(&operands.0, find);
        self.boolean(&operands.1, find);
        self.words.push(operation);
    }

    fn integers<V: Copy>(&mut self, operands: &(IntegerExpr<V>, IntegerExpr<V>), operation: u64, find: &dyn Fn(V) -> Option<Found>) {
        self.integer(&operands.0, find);
        self.integer(&operands.1, find);
        self.words.push(operation);
    }
}

/// The tree of a guard's items. `find` names a variable and its type. None, where they are no items of a guard.
pub(crate) fn guard_of<V: Copy>(words: &[u64], find: &dyn Fn(u32) -> Option<(V, Type)>) -> Option<BooleanExpr<V>> {
    let mut stack: Vec<Expression<V>> = vec![];
    for word in words {
        let payload = (word >> 8) as u32;
        let next = match word & 255 {
            TRUTH => (payload != 0).into(),
            NUMBER => (payload as Integer).into(),
            VARIABLE => Expression::from(find(payload)?),
            NOT => (!stack.pop()?).ok()?,
            NEGATE => (-stack.pop()?).ok()?,
            operation => {
                let (right, left) = (stack.pop()?, stack.pop()?);
                match operation {
                    AND => left & right,
                    OR => left | right,
                    ADD => left + right,
                    SUBTRACT => left - right,
                    MULTIPLY => left * right,
                    DIVIDE => left / right,
                    REMAINDER => left % right,
                    EQUAL => left.equal_to(right).map(Expression::from),
                    LESS => left.less_than(right).map(Expression::from),
                    LESS_OR_EQUAL => left.less_than_or_equal_to(right).map(Expression::from),
                    _ => return None,
                }
                .ok()?
            }
        };
        stack.push(next);
    }
    match (stack.pop()?, stack.is_empty()) {
        (Expression::Boolean(tree), true) => Some(tree),
        _ => None,
    }
}

/// The variables of items, each where it first stands.
pub(crate) fn variables_of(words: &[u64]) -> Vec<u32> {
    let mut variables = vec![];
    for word in words.iter().filter(|word| *word & 255 == VARIABLE) {
        let variable = (word >> 8) as u32;
        if !variables.contains(&variable) {
            variables.push(variable);
        }
    }
    variables
}

/// The items with what the variables hold in their places.
pub(crate) fn with_values(words: &[u64], held: &dyn Fn(u32) -> Option<Val>) -> Option<Vec<u64>> {
    let item = |word: &u64| match word & 255 {
        VARIABLE => held((word >> 8) as u32).map(|val| match val {
            Val::Boolean(b) => u64::from(b) << 8 | TRUTH,
            Val::Integer(n) => number(n),
        }),
        _ => Some(*word),
    };
    words.iter().map(item).collect()
}

fn number(n: Integer) -> u64 {
    u64::from(n as u32) << 8 | NUMBER
}

fn variable(number: u32) -> u64 {
    u64::from(number) << 8 | VARIABLE
}
