use super::IntegerExpr;
use std::ops::{BitAnd, BitOr, Not};

/// A boolean expression: what a guard is.
///
/// ```
/// use njunnemar::{BooleanExpr, IntegerExpr, program_graph::Var};
///
/// fn in_between(v: Var) -> BooleanExpr<Var> {
///     IntegerExpr::from(1).less_than(v.into()) & IntegerExpr::from(v).less_than(9.into())
/// }
/// ```
#[derive(Debug, Clone, PartialEq, Eq)]
pub enum BooleanExpr<V> {
    /// `true` or `false`.
    Const(bool),
    /// A boolean variable.
    Var(V),
    /// A bit of the word that is handed with a call. A guard may not draw.
    Draw,
    /// Not.
    Not(Box<BooleanExpr<V>>),
    /// Both.
    And(Box<(BooleanExpr<V>, BooleanExpr<V>)>),
    /// At least one.
    Or(Box<(BooleanExpr<V>, BooleanExpr<V>)>),
    /// Both or none.
    Equal(Box<(BooleanExpr<V>, BooleanExpr<V>)>),
    /// Two integers are equal.
    IntEqual(Box<(IntegerExpr<V>, IntegerExpr<V>)>),
    /// The first integer is less.
    IntLess(Box<(IntegerExpr<V>, IntegerExpr<V>)>),
    /// The first integer is less, or both are equal.
    IntLessEq(Box<(IntegerExpr<V>, IntegerExpr<V>)>),
}

impl<V> From<bool> for BooleanExpr<V> {
    fn from(value: bool) -> Self {
        BooleanExpr::Const(value)
    }
}

impl<V> BooleanExpr<V> {
    /// Whether both are true, or both are false.
    pub fn equal_to(self, rhs: Self) -> Self {
        BooleanExpr::Equal(Box::new((self, rhs)))
    }
}

impl<V> Not for BooleanExpr<V> {
    type Output = Self;

    fn not(self) -> Self {
        BooleanExpr::Not(Box::new(self))
    }
}

impl<V> BitAnd for BooleanExpr<V> {
    type Output = Self;

    fn bitand(self, rhs: Self) -> Self {
        BooleanExpr::And(Box::new((self, rhs)))
    }
}

impl<V> BitOr for BooleanExpr<V> {
    type Output = Self;

    fn bitor(self, rhs: Self) -> Self {
        BooleanExpr::Or(Box::new((self, rhs)))
    }
}
