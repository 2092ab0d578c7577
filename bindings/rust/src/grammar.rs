//! Values, and expressions over variables: a tree, which is turned into the postfix items that the archive takes.

mod boolean;
mod infix;
mod integer;
mod items;

pub use boolean::BooleanExpr;
pub use integer::IntegerExpr;
pub(crate) use items::{Items, guard_of, variables_of, with_values};

use crate::archive;
use std::{
    fmt,
    ops::{Add, BitAnd, BitOr, Div, Mul, Neg, Not, Rem, Sub},
};

/// An integer: 32 bits and a sign.
pub type Integer = i32;

/// Why an expression has no kind, or may not stand where it was put.
#[derive(Debug, Clone, Copy, PartialEq, Eq)]
pub enum TypeError {
    /// Operands, or a variable, of another type than asked.
    TypeMismatch,
    /// A variable that the graph does not have.
    UnknownVar,
    /// A guard that draws.
    Draws,
    /// A constant expression without a value, or with more items than there is room for.
    NoValue,
}

impl fmt::Display for TypeError {
    fn fmt(&self, f: &mut fmt::Formatter<'_>) -> fmt::Result {
        f.write_str(match self {
            TypeError::TypeMismatch => "the types do not match",
            TypeError::UnknownVar => "an unknown variable",
            TypeError::Draws => "a guard may not draw",
            TypeError::NoValue => "it has no value",
        })
    }
}

impl std::error::Error for TypeError {}

/// The kinds of values.
#[derive(Debug, Clone, Copy, Hash, PartialEq, Eq)]
pub enum Type {
    /// `true` or `false`.
    Boolean,
    /// An integer of 32 bits.
    Integer,
}

impl Type {
    /// `false`, or 0.
    pub fn default_value(self) -> Val {
        match self {
            Type::Boolean => Val::Boolean(false),
            Type::Integer => Val::Integer(0),
        }
    }
}

/// A value.
#[derive(Debug, Clone, Copy, Hash, PartialEq, Eq)]
pub enum Val {
    /// `true` or `false`.
    Boolean(bool),
    /// An integer.
    Integer(Integer),
}

impl Val {
    /// Its type.
    pub fn r#type(self) -> Type {
        match self {
            Val::Boolean(_) => Type::Boolean,
            Val::Integer(_) => Type::Integer,
        }
    }
}

impl fmt::Display for Val {
    fn fmt(&self, f: &mut fmt::Formatter<'_>) -> fmt::Result {
        match self {
            Val::Boolean(b) => write!(f, "{b}"),
            Val::Integer(n) => write!(f, "{n}"),
        }
    }
}

impl From<bool> for Val {
    fn from(value: bool) -> Self {
        Val::Boolean(value)
    }
}

impl From<Integer> for Val {
    fn from(value: Integer) -> Self {
        Val::Integer(value)
    }
}

/// An expression over variables `V`.
///
/// Operations of two expressions answer an error where the types do not go together. Where they are known, the trees
/// [`BooleanExpr`] and [`IntegerExpr`] can be put together without asking.
///
/// ```
/// use njunnemar::{Val, program_graph::PgExpression};
///
/// let sum = (PgExpression::from(40) + PgExpression::from(2)).unwrap();
/// assert_eq!(sum.eval_constant(), Ok(Val::from(42)));
/// (sum + PgExpression::from(true)).expect_err("an integer and a boolean");
/// ```
#[derive(Debug, Clone, PartialEq, Eq)]
pub enum Expression<V> {
    /// A boolean one.
    Boolean(BooleanExpr<V>),
    /// An integer one.
    Integer(IntegerExpr<V>),
}

impl<V> From<Val> for Expression<V> {
    fn from(value: Val) -> Self {
        match value {
            Val::Boolean(b) => b.into(),
            Val::Integer(n) => n.into(),
        }
    }
}

impl<V> From<bool> for Expression<V> {
    fn from(value: bool) -> Self {
        Expression::Boolean(value.into())
    }
}

impl<V> From<Integer> for Expression<V> {
    fn from(value: Integer) -> Self {
        Expression::Integer(value.into())
    }
}

impl<V> From<(V, Type)> for Expression<V> {
    fn from((var, r#type): (V, Type)) -> Self {
        Expression::from_var(var, r#type)
    }
}

impl<V> From<BooleanExpr<V>> for Expression<V> {
    fn from(tree: BooleanExpr<V>) -> Self {
        Expression::Boolean(tree)
    }
}

impl<V> From<IntegerExpr<V>> for Expression<V> {
    fn from(tree: IntegerExpr<V>) -> Self {
        Expression::Integer(tree)
    }
}

type OrError<T> = Result<T, TypeError>;

impl<V> Expression<V> {
    /// The variable, of this type. The graph has to have it with this type.
    pub fn from_var(var: V, r#type: Type) -> Self {
        match r#type {
            Type::Boolean => Expression::Boolean(BooleanExpr::Var(var)),
            Type::Integer => Expression::Integer(IntegerExpr::Var(var)),
        }
    }

    /// Its type.
    pub fn r#type(&self) -> Type {
        match self {
            Expression::Boolean(_) => Type::Boolean,
            Expression::Integer(_) => Type::Integer,
        }
    }

    /// Whether it has neither variables nor draws.
    pub fn is_constant(&self) -> bool
    where
        V: Copy,
    {
        Items::of(self, &|_| None).is_constant()
    }

    /// The value of a constant expression, by the archive.
    pub fn eval_constant(&self) -> OrError<Val>
    where
        V: Copy,
    {
        let items = Items::of(self, &|_| None);
        if !items.is_constant() {
            return Err(TypeError::UnknownVar);
        }
        archive::constant(self.r#type(), items.words()).ok_or(TypeError::NoValue)
    }

    /// Whether both are equal.
    pub fn equal_to(self, rhs: Self) -> OrError<BooleanExpr<V>> {
        match (self, rhs) {
            (Expression::Boolean(l), Expression::Boolean(r)) => Ok(l.equal_to(r)),
            (Expression::Integer(l), Expression::Integer(r)) => Ok(l.equal_to(r)),
            _ => Err(TypeError::TypeMismatch),
        }
    }

    /// Whether the first is less.
    pub fn less_than(self, rhs: Self) -> OrError<BooleanExpr<V>> {
        let (l, r) = integers(self, rhs)?;
        Ok(l.less_than(r))
    }

    /// Whether the first is less, or both are equal.
    pub fn less_than_or_equal_to(self, rhs: Self) -> OrError<BooleanExpr<V>> {
        let (l, r) = integers(self, rhs)?;
        Ok(l.less_than_or_equal_to(r))
    }

    /// Whether the first is greater.
    pub fn greater_than(self, rhs: Self) -> OrError<BooleanExpr<V>> {
        rhs.less_than(self)
    }

    /// Whether the first is greater, or both are equal.
    pub fn greater_than_or_equal_to(self, rhs: Self) -> OrError<BooleanExpr<V>> {
        rhs.less_than_or_equal_to(self)
    }
}

fn integers<V>(l: Expression<V>, r: Expression<V>) -> OrError<(IntegerExpr<V>, IntegerExpr<V>)> {
    match (l, r) {
        (Expression::Integer(l), Expression::Integer(r)) => Ok((l, r)),
        _ => Err(TypeError::TypeMismatch),
    }
}

/// An operation of expressions: of the trees, where their types are the operation's.
macro_rules! operation {
    ($operator:ident, $call:ident, $kind:ident) => {
        impl<V> $operator for Expression<V> {
            type Output = OrError<Self>;

            fn $call(self, rhs: Self) -> Self::Output {
                match (self, rhs) {
                    (Expression::$kind(l), Expression::$kind(r)) => Ok(Expression::$kind(l.$call(r))),
                    _ => Err(TypeError::TypeMismatch),
                }
            }
        }
    };
}

operation!(Add, add, Integer);
operation!(Sub, sub, Integer);
operation!(Mul, mul, Integer);
operation!(Div, div, Integer);
operation!(Rem, rem, Integer);
operation!(BitAnd, bitand, Boolean);
operation!(BitOr, bitor, Boolean);

impl<V> Neg for Expression<V> {
    type Output = OrError<Self>;

    fn neg(self) -> Self::Output {
        match self {
            Expression::Integer(tree) => Ok(Expression::Integer(-tree)),
            Expression::Boolean(_) => Err(TypeError::TypeMismatch),
        }
    }
}

impl<V> Not for Expression<V> {
    type Output = OrError<Self>;

    fn not(self) -> Self::Output {
        match self {
            Expression::Boolean(tree) => Ok(Expression::Boolean(!tree)),
            Expression::Integer(_) => Err(TypeError::TypeMismatch),
        }
    }
}
