//! Test code for the grammar, by the port's own rules (docs/RULES.md).
//!
//! An expression is handed as postfix items and kept as a tree: typing and evaluation go down the tree. The answering
//! program has a second reading of the same rules that goes along the items; the two are compared at every line.
//!
//! What the rules say of the number of items, of operands waiting and of draws is no business of this module.

use rand::Rng;
use std::panic::resume_unwind;
use thiserror::Error;

/// Why an expression is refused. The rules leave the detail out: all of it is 6.
#[derive(Debug, Clone, Copy, Error)]
pub enum TypeError {
    #[error("ill-typed")]
    TypeMismatch,
    #[error("unknown variable")]
    UnknownVar,
    #[error("a guard draws")]
    Draws,
}

#[derive(Debug, Clone, Copy, Hash, PartialEq, Eq)]
pub enum Type {
    Boolean,
    Integer,
}

#[derive(Debug, Clone, Copy, Hash, PartialEq, Eq)]
pub enum Val {
    Boolean(bool),
    Integer(i32),
}

impl Val {
    pub fn r#type(self) -> Type {
        match self {
            Val::Boolean(_) => Type::Boolean,
            Val::Integer(_) => Type::Integer,
        }
    }
}

#[derive(Debug, Clone, Copy, PartialEq, Eq)]
pub enum Unary {
    Not,
    Negate,
}

#[derive(Debug, Clone, Copy, PartialEq, Eq)]
pub enum Binary {
    And,
    Or,
    Add,
    Sub,
    Mul,
    Div,
    Rem,
    Equal,
    Less,
    LessEq,
}

/// An item of a postfix expression. A variable comes with its type, as in the Rust's `from_var`.
#[derive(Debug, Clone, Copy, PartialEq, Eq)]
pub enum Item<V> {
    Const(Val),
    Var(V, Type),
    Unary(Unary),
    Binary(Binary),
    Draw,
    /// What is no item.
    Unknown,
}

#[derive(Debug, Clone)]
enum Tree<V> {
    Const(Val),
    Var(V, Type),
    Unary(Unary, Box<Tree<V>>),
    Binary(Binary, Box<(Tree<V>, Tree<V>)>),
    Draw,
}

/// An effect's expression has no value. `eval` has to give a value, so it unwinds with this.
#[derive(Debug, Clone, Copy)]
pub struct NoValue;

/// A tree, or none where the items do not make one.
#[derive(Debug, Clone)]
pub struct Expression<V>(Option<Tree<V>>);

impl<V: Copy> Expression<V> {
    pub fn from_items(items: &[Item<V>]) -> Self {
        let mut rest = items;
        let tree = last_tree(&mut rest);
        Expression(if rest.is_empty() { tree } else { None })
    }

    pub fn r#type(&self) -> Type {
        self.0
            .as_ref()
            .and_then(Tree::r#type)
            .expect("asked of a well-typed expression only")
    }

    pub fn eval<R: Rng>(&self, vars: &dyn Fn(V) -> Val, rng: Option<&mut R>) -> Val {
        self.value(vars, rng)
            .unwrap_or_else(|| resume_unwind(Box::new(NoValue)))
    }

    pub(crate) fn context(&self, vars: &dyn Fn(V) -> Option<Type>) -> Result<(), TypeError> {
        let tree = self.0.as_ref().ok_or(TypeError::TypeMismatch)?;
        tree.context(vars)?;
        tree.r#type().map(drop).ok_or(TypeError::TypeMismatch)
    }

    fn value<R: Rng>(&self, vars: &dyn Fn(V) -> Val, rng: Option<&mut R>) -> Option<Val> {
        let tree = self.0.as_ref().expect("a well-typed expression");
        match rng {
            Some(rng) => tree.value(vars, &mut || rng.draw()),
            None => tree.value(vars, &mut || panic!("a draw without a word")),
        }
    }
}

/// A guard: boolean, and it does not draw. Without a value it is not satisfied.
#[derive(Debug, Clone)]
pub struct BooleanExpr<V>(Expression<V>);

impl<V: Copy> BooleanExpr<V> {
    pub fn from_items(items: &[Item<V>]) -> Self {
        BooleanExpr(Expression::from_items(items))
    }

    pub fn eval<R: Rng>(&self, vars: &dyn Fn(V) -> Val, rng: Option<&mut R>) -> bool {
        self.0.value(vars, rng) == Some(Val::Boolean(true))
    }

    pub(crate) fn context(&self, vars: &dyn Fn(V) -> Option<Type>) -> Result<(), TypeError> {
        self.0.context(vars)?;
        if self.0.r#type() != Type::Boolean {
            Err(TypeError::TypeMismatch)
        } else if self.0.0.as_ref().is_some_and(Tree::draws) {
            Err(TypeError::Draws)
        } else {
            Ok(())
        }
    }
}

impl<V> get_size2::GetSize for Expression<V> {}
impl<V> get_size2::GetSize for BooleanExpr<V> {}

/// Takes the tree that ends with the last item off the items.
fn last_tree<V: Copy>(rest: &mut &[Item<V>]) -> Option<Tree<V>> {
    let (last, before) = rest.split_last()?;
    *rest = before;
    Some(match *last {
        Item::Const(val) => Tree::Const(val),
        Item::Var(var, r#type) => Tree::Var(var, r#type),
        Item::Draw => Tree::Draw,
        Item::Unary(op) => Tree::Unary(op, Box::new(last_tree(rest)?)),
        Item::Binary(op) => {
            let right = last_tree(rest)?;
            let left = last_tree(rest)?;
            Tree::Binary(op, Box::new((left, right)))
        }
        Item::Unknown => return None,
    })
}

impl<V: Copy> Tree<V> {
    fn r#type(&self) -> Option<Type> {
        match self {
            Tree::Const(val) => Some(val.r#type()),
            Tree::Var(_, r#type) => Some(*r#type),
            Tree::Draw => Some(Type::Boolean),
            Tree::Unary(op, operand) => match (op, operand.r#type()?) {
                (Unary::Not, Type::Boolean) => Some(Type::Boolean),
                (Unary::Negate, Type::Integer) => Some(Type::Integer),
                _ => None,
            },
            Tree::Binary(op, operands) => {
                let (left, right) = (operands.0.r#type()?, operands.1.r#type()?);
                op.r#type(left, right)
            }
        }
    }

    /// Every variable is known and has the type that it came with.
    fn context(&self, vars: &dyn Fn(V) -> Option<Type>) -> Result<(), TypeError> {
        match self {
            Tree::Const(_) | Tree::Draw => Ok(()),
            Tree::Var(var, r#type) => match vars(*var) {
                None => Err(TypeError::UnknownVar),
                Some(known) if known != *r#type => Err(TypeError::TypeMismatch),
                Some(_) => Ok(()),
            },
            Tree::Unary(_, operand) => operand.context(vars),
            Tree::Binary(_, operands) => {
                operands.0.context(vars)?;
                operands.1.context(vars)
            }
        }
    }

    fn draws(&self) -> bool {
        match self {
            Tree::Const(_) | Tree::Var(..) => false,
            Tree::Draw => true,
            Tree::Unary(_, operand) => operand.draws(),
            Tree::Binary(_, operands) => operands.0.draws() || operands.1.draws(),
        }
    }

    /// Every part is evaluated, the left before the right, also where one has no value: draws take their bits by place.
    fn value(&self, vars: &dyn Fn(V) -> Val, draw: &mut dyn FnMut() -> bool) -> Option<Val> {
        match self {
            Tree::Const(val) => Some(*val),
            Tree::Var(var, _) => Some(vars(*var)),
            Tree::Draw => Some(Val::Boolean(draw())),
            Tree::Unary(op, operand) => {
                let operand = operand.value(vars, draw);
                op.value(operand?)
            }
            Tree::Binary(op, operands) => {
                let left = operands.0.value(vars, draw);
                let right = operands.1.value(vars, draw);
                op.value(left?, right?)
            }
        }
    }
}

impl Unary {
    fn value(self, operand: Val) -> Option<Val> {
        match (self, operand) {
            (Unary::Not, Val::Boolean(b)) => Some(Val::Boolean(!b)),
            (Unary::Negate, Val::Integer(i)) => i.checked_neg().map(Val::Integer),
            _ => panic!("ill-typed"),
        }
    }
}

impl Binary {
    fn r#type(self, left: Type, right: Type) -> Option<Type> {
        use Type::{Boolean, Integer};
        match self {
            Binary::And | Binary::Or if (left, right) == (Boolean, Boolean) => Some(Boolean),
            Binary::Equal if left == right => Some(Boolean),
            Binary::Less | Binary::LessEq if (left, right) == (Integer, Integer) => Some(Boolean),
            Binary::Add | Binary::Sub | Binary::Mul | Binary::Div | Binary::Rem
                if (left, right) == (Integer, Integer) =>
            {
                Some(Integer)
            }
            _ => None,
        }
    }

    fn value(self, left: Val, right: Val) -> Option<Val> {
        match (left, right) {
            (Val::Boolean(l), Val::Boolean(r)) => Some(Val::Boolean(match self {
                Binary::And => l & r,
                Binary::Or => l | r,
                Binary::Equal => l == r,
                _ => panic!("ill-typed"),
            })),
            (Val::Integer(l), Val::Integer(r)) => self.of_integers(l, r),
            _ => panic!("ill-typed"),
        }
    }

    fn of_integers(self, l: i32, r: i32) -> Option<Val> {
        match self {
            Binary::Add => l.checked_add(r).map(Val::Integer),
            Binary::Sub => l.checked_sub(r).map(Val::Integer),
            Binary::Mul => l.checked_mul(r).map(Val::Integer),
            Binary::Div => l.checked_div(r).map(Val::Integer),
            // -2147483648 % -1 is 0.
            Binary::Rem => (r != 0).then(|| Val::Integer(l.wrapping_rem(r))),
            Binary::Equal => Some(Val::Boolean(l == r)),
            Binary::Less => Some(Val::Boolean(l < r)),
            Binary::LessEq => Some(Val::Boolean(l <= r)),
            Binary::And | Binary::Or => panic!("ill-typed"),
        }
    }
}
