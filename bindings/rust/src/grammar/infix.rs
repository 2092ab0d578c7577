//! An expression as a person writes it: operations between their operands, and brackets only where it would else read as another tree.

use super::{BooleanExpr, IntegerExpr};
use std::fmt;

/// How firmly a text holds together, from what has `or` outermost to a name or a number.
#[derive(Clone, Copy, PartialEq, Eq, PartialOrd, Ord)]
enum Level {
    Or,
    And,
    Not,
    Comparison,
    Sum,
    Product,
    Opposite,
    Alone,
}

type Text = (String, Level);
type Names<'a, V> = &'a dyn Fn(V) -> String;

/// The text, in brackets unless it holds together at least so firmly.
fn held((text, level): Text, least: Level) -> String {
    if level < least { format!("({text})") } else { text }
}

fn between(left: Text, operation: &str, right: Text, (level, left_least, right_least): (Level, Level, Level)) -> Text {
    (format!("{} {operation} {}", held(left, left_least), held(right, right_least)), level)
}

fn boolean<V: Copy>(tree: &BooleanExpr<V>, names: Names<'_, V>) -> Text {
    const OR: (Level, Level, Level) = (Level::Or, Level::Or, Level::Or);
    const AND: (Level, Level, Level) = (Level::And, Level::And, Level::And);
    const COMPARISON: (Level, Level, Level) = (Level::Comparison, Level::Sum, Level::Sum);
    let booleans = |both: &(BooleanExpr<V>, BooleanExpr<V>), operation, levels| {
        between(boolean(&both.0, names), operation, boolean(&both.1, names), levels)
    };
    let integers = |both: &(IntegerExpr<V>, IntegerExpr<V>), operation| {
        between(integer(&both.0, names), operation, integer(&both.1, names), COMPARISON)
    };
    match tree {
        BooleanExpr::Const(b) => (b.to_string(), Level::Alone),
        BooleanExpr::Var(var) => (names(*var), Level::Alone),
        BooleanExpr::Draw => ("a draw".to_string(), Level::Alone),
        BooleanExpr::Not(operand) => (format!("not {}", held(boolean(operand, names), Level::Alone)), Level::Not),
        BooleanExpr::And(both) => booleans(both, "and", AND),
        BooleanExpr::Or(both) => booleans(both, "or", OR),
        BooleanExpr::Equal(both) => booleans(both, "=", COMPARISON),
        BooleanExpr::IntEqual(both) => integers(both, "="),
        BooleanExpr::IntLess(both) => integers(both, "<"),
        BooleanExpr::IntLessEq(both) => integers(both, "<="),
    }
}

fn integer<V: Copy>(tree: &IntegerExpr<V>, names: Names<'_, V>) -> Text {
    // Of a sum in a sum, or a product in a product, the left one needs no brackets.
    const SUM: (Level, Level, Level) = (Level::Sum, Level::Sum, Level::Product);
    const PRODUCT: (Level, Level, Level) = (Level::Product, Level::Product, Level::Opposite);
    let both = |both: &(IntegerExpr<V>, IntegerExpr<V>), operation, levels| {
        between(integer(&both.0, names), operation, integer(&both.1, names), levels)
    };
    match tree {
        IntegerExpr::Const(n) => (n.to_string(), if *n < 0 { Level::Opposite } else { Level::Alone }),
        IntegerExpr::Var(var) => (names(*var), Level::Alone),
        IntegerExpr::Opposite(operand) => (format!("-{}", held(integer(operand, names), Level::Alone)), Level::Opposite),
        IntegerExpr::Add(operands) => both(operands, "+", SUM),
        IntegerExpr::Sub(operands) => both(operands, "-", SUM),
        IntegerExpr::Mul(operands) => both(operands, "*", PRODUCT),
        IntegerExpr::Div(operands) => both(operands, "/", PRODUCT),
        IntegerExpr::Rem(operands) => both(operands, "%", PRODUCT),
    }
}

impl<V: Copy> BooleanExpr<V> {
    /// The expression written out, its variables under these names.
    ///
    /// ```
    /// use njunnemar::{BooleanExpr, IntegerExpr};
    ///
    /// let sum = IntegerExpr::Var("n") + 1.into();
    /// let guard = BooleanExpr::Var("open") & !(sum * 2.into()).less_than(9.into());
    /// assert_eq!(guard.written(&|name| name.to_string()), "open and not ((n + 1) * 2 < 9)");
    /// ```
    pub fn written(&self, names: &dyn Fn(V) -> String) -> String {
        boolean(self, names).0
    }
}

impl<V: Copy> IntegerExpr<V> {
    /// The expression written out, its variables under these names.
    pub fn written(&self, names: &dyn Fn(V) -> String) -> String {
        integer(self, names).0
    }
}

impl<V: Copy + fmt::Display> fmt::Display for BooleanExpr<V> {
    fn fmt(&self, f: &mut fmt::Formatter<'_>) -> fmt::Result {
        f.write_str(&self.written(&|var| var.to_string()))
    }
}

impl<V: Copy + fmt::Display> fmt::Display for IntegerExpr<V> {
    fn fmt(&self, f: &mut fmt::Formatter<'_>) -> fmt::Result {
        f.write_str(&self.written(&|var| var.to_string()))
    }
}
