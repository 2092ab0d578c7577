//! Expressions by docs/RULES.md, along the postfix items. The stand-in grammar goes down a tree instead.

use scan_core::{Type, Val};

pub const MOST_ITEMS: usize = 64;
pub const MOST_OPERANDS: usize = 16;
pub const MOST_DRAWS: usize = 64;

/// Low bytes of the words of constants and variables.
pub const BOOLEAN: u64 = 14;
pub const INTEGER: u64 = 15;
pub const VARIABLE: u64 = 16;

/// What a word says. Operations are their numbers, 1 to 12.
pub enum Meaning {
    Operation(u8),
    Draw,
    Const(Val),
    Var(u64),
}

/// None for a word that is no item.
pub fn meaning(word: u64) -> Option<Meaning> {
    let payload = word / 256;
    match word % 256 {
        operation @ 1..=12 if payload == 0 => Some(Meaning::Operation(operation as u8)),
        13 if payload == 0 => Some(Meaning::Draw),
        BOOLEAN if payload < 2 => Some(Meaning::Const(Val::Boolean(payload == 1))),
        INTEGER => {
            let bits = u32::try_from(payload).ok()?;
            Some(Meaning::Const(Val::Integer(bits.cast_signed())))
        }
        VARIABLE => Some(Meaning::Var(payload)),
        _ => None,
    }
}

#[derive(Debug, Clone, Copy, PartialEq, Eq)]
pub struct Typed {
    pub kind: Type,
    /// More than 16 operands were waiting.
    pub too_deep: bool,
}

/// The kind of a well-typed expression of any length.
pub fn type_of(items: &[u64], vars: &[Val]) -> Option<Typed> {
    let mut waiting = Vec::new();
    let mut most = 0;
    for &word in items {
        let kind = match meaning(word)? {
            Meaning::Const(val) => val.r#type(),
            Meaning::Draw => Type::Boolean,
            Meaning::Var(var) => vars.get(usize::try_from(var).ok()?)?.r#type(),
            Meaning::Operation(operation) => applied(operation, &mut waiting)?,
        };
        waiting.push(kind);
        most = most.max(waiting.len());
    }
    match waiting.as_slice() {
        &[kind] => Some(Typed {
            kind,
            too_deep: most > MOST_OPERANDS,
        }),
        _ => None,
    }
}

/// Takes the operands' kinds and gives the result's.
fn applied(operation: u8, waiting: &mut Vec<Type>) -> Option<Type> {
    let last = waiting.pop()?;
    if operation == 1 {
        return (last == Type::Boolean).then_some(Type::Boolean);
    }
    if operation == 4 {
        return (last == Type::Integer).then_some(Type::Integer);
    }
    let first = waiting.pop()?;
    let both = |kind| first == kind && last == kind;
    match operation {
        2 | 3 => both(Type::Boolean).then_some(Type::Boolean),
        5..=9 => both(Type::Integer).then_some(Type::Integer),
        10 => (first == last).then_some(Type::Boolean),
        _ => both(Type::Integer).then_some(Type::Boolean),
    }
}

pub fn draws(items: &[u64]) -> usize {
    items
        .iter()
        .filter(|&&word| matches!(meaning(word), Some(Meaning::Draw)))
        .count()
}

/// The value of any items, if they have one. Every item is evaluated; draws take the lowest bits of the word, also of items
/// that have no value: those with an operand too few, more than 16 waiting, or not one result. What is missing has no value,
/// and nothing made of it has.
pub fn value_of(items: &[u64], vars: &[Val], word: &mut u64) -> Option<Val> {
    let mut waiting: Vec<Option<Val>> = Vec::new();
    let mut fits = true;
    for &item in items {
        let value = match meaning(item) {
            None => None,
            Some(Meaning::Const(val)) => Some(val),
            Some(Meaning::Var(var)) => vars.get(var as usize).copied(),
            Some(Meaning::Draw) => {
                let bit = *word % 2;
                *word /= 2;
                Some(Val::Boolean(bit == 1))
            }
            Some(Meaning::Operation(operation)) => computed(operation, &mut waiting),
        };
        waiting.push(value);
        fits &= waiting.len() <= MOST_OPERANDS;
    }
    match waiting.as_slice() {
        &[value] if fits => value,
        _ => None,
    }
}

/// An operand that is missing or of another kind leaves no value.
fn computed(operation: u8, waiting: &mut Vec<Option<Val>>) -> Option<Val> {
    let last = waiting.pop().flatten();
    match operation {
        1 => Some(Val::Boolean(!truth(last?)?)),
        4 => fitting(-whole(last?)?),
        _ => {
            let first = waiting.pop().flatten();
            of_two(operation, first?, last?)
        }
    }
}

fn of_two(operation: u8, first: Val, last: Val) -> Option<Val> {
    match operation {
        2 | 3 => {
            let (first, last) = (truth(first)?, truth(last)?);
            let both = operation == 2;
            Some(Val::Boolean(if both {
                first && last
            } else {
                first || last
            }))
        }
        10 => (first.r#type() == last.r#type()).then_some(Val::Boolean(first == last)),
        _ => of_integers(operation, whole(first)?, whole(last)?),
    }
}

fn of_integers(operation: u8, first: i64, last: i64) -> Option<Val> {
    match operation {
        5 => fitting(first + last),
        6 => fitting(first - last),
        7 => fitting(first * last),
        8 | 9 if last == 0 => None,
        8 => fitting(first / last),
        9 => fitting(first % last),
        11 => Some(Val::Boolean(first < last)),
        12 => Some(Val::Boolean(first <= last)),
        _ => unreachable!("operations are 1 to 12"),
    }
}

/// An integer is computed with 64 bits, and has a value where that fits 32.
fn fitting(result: i64) -> Option<Val> {
    i32::try_from(result).ok().map(Val::Integer)
}

fn truth(val: Val) -> Option<bool> {
    match val {
        Val::Boolean(b) => Some(b),
        Val::Integer(_) => None,
    }
}

fn whole(val: Val) -> Option<i64> {
    match val {
        Val::Integer(i) => Some(i64::from(i)),
        Val::Boolean(_) => None,
    }
}
