use super::{BooleanExpr, Integer};
use std::ops::{Add, Div, Mul, Neg, Rem, Sub};

/// An integer expression. A zero divisor, or a result that 32 bits do not hold, leaves it without a value.
#[derive(Debug, Clone, PartialEq, Eq)]
pub enum IntegerExpr<V> {
    /// An integer.
    Const(Integer),
    /// An integer variable.
    Var(V),
    /// Its opposite.
    Opposite(Box<IntegerExpr<V>>),
    /// A sum.
    Add(Box<(IntegerExpr<V>, IntegerExpr<V>)>),
    /// A difference.
    Sub(Box<(IntegerExpr<V>, IntegerExpr<V>)>),
    /// A product.
    Mul(Box<(IntegerExpr<V>, IntegerExpr<V>)>),
    /// A quotient, cut toward zero.
    Div(Box<(IntegerExpr<V>, IntegerExpr<V>)>),
    /// A remainder, with the sign of the dividend.
    Rem(Box<(IntegerExpr<V>, IntegerExpr<V>)>),
}

impl<V> From<Integer> for IntegerExpr<V> {
    fn from(value: Integer) -> Self {
        IntegerExpr::Const(value)
    }
}

impl<V> IntegerExpr<V> {
    /// Whether both are equal.
    pub fn equal_to(self, rhs: Self) -> BooleanExpr<V> {
        BooleanExpr::IntEqual(Box::new((self, rhs)))
    }

    /// Whether the first is less.
    pub fn less_than(self, rhs: Self) -> BooleanExpr<V> {
        BooleanExpr::IntLess(Box::new((self, rhs)))
    }

    /// Whether the first is less, or both are equal.
    pub fn less_than_or_equal_to(self, rhs: Self) -> BooleanExpr<V> {
        BooleanExpr::IntLessEq(Box::new((self, rhs)))
    }
}

impl<V> Neg for IntegerExpr<V> {
    type Output = Self;

    fn neg(self) -> Self {
        IntegerExpr::Opposite(Box::new(self))
    }
}

macro_rules! operation {
    ($operator:ident, $call:ident) => {
        impl<V> $operator for IntegerExpr<V> {
            type Output = Self;

            fn $call(self, rhs: Self) -> Self {
                IntegerExpr::$operator(Box::new((self, rhs)))
            }
        }
    };
}

operation!(Add, add);
operation!(Sub, sub);
operation!(Mul, mul);
operation!(Div, div);
operation!(Rem, rem);
