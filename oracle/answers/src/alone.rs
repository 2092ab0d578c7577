//! Lines on an expression alone. The grammar is no part of the Rust's text, so the rules answer; the test code that stands in for
//! it is asked too, and has to agree.

use crate::answer::Answer;
use crate::call::Items;
use crate::expression::{self, MOST_ITEMS};
use crate::oracle::{Replied, by_rules, differs};
use crate::rust;
use scan_core::{Type, Val};

/// The variables that an expression is evaluated over: those that are not named are false.
const VARS: usize = 16;

pub fn type_of(items: &Items, kinds: &[Type]) -> Replied {
    if items.len() > MOST_ITEMS {
        return by_rules(Answer::Refused(28));
    }
    let vars: Vec<Val> = kinds.iter().map(|kind| some(*kind)).collect();
    let typed = expression::type_of(items, &vars);
    let ours = typed.map_or(Answer::Refused(6), |typed| Answer::Kind(typed.kind));
    let theirs = rust::typed(items, &vars);
    if theirs.as_ref() != Ok(&ours) {
        return differs("type", &ours, &theirs);
    }
    match typed {
        Some(typed) if typed.too_deep => by_rules(Answer::Refused(28)),
        _ => by_rules(ours),
    }
}

pub fn draws(items: &Items) -> Replied {
    by_rules(Answer::Number(expression::draws(items) as u32))
}

/// Any items are evaluated, but the test code is asked for well-typed ones alone.
pub fn eval(items: &Items, vals: &[Val], word: u64) -> Replied {
    let mut vars = [Val::Boolean(false); VARS];
    vars[..vals.len()].copy_from_slice(vals);
    let mut rest = word;
    let ours = expression::value_of(items, &vars, &mut rest);
    let typed = expression::type_of(items, &vars);
    if typed.is_some_and(|typed| !typed.too_deep) {
        let theirs = rust::evaluated(items, &vars, word);
        if theirs != Ok(ours) {
            return differs("eval", &ours, &theirs);
        }
    }
    by_rules(Answer::Evaluated(ours, rest))
}

/// Some value of a kind.
fn some(kind: Type) -> Val {
    match kind {
        Type::Boolean => Val::Boolean(false),
        Type::Integer => Val::Integer(0),
    }
}
