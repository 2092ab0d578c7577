//! Building by docs/RULES.md: the first check that objects, in its order.

use crate::answer::{Answer, EPSILON};
use crate::call::{Building, Items, Limit, NewTransition};
use crate::expression::{self, MOST_ITEMS, Typed};
use crate::table::{
    ACTIONS, Action, CLOCKS, Graph, LOCATIONS, MOST_EFFECTS, MOST_LIMITS, MOST_RESETS, MOST_VALUES,
    PROCESSES, SIZES, TRANSITIONS, VARIABLES, allows_start, draws_fit,
};
use scan_core::Type;

/// Why a call is refused.
#[derive(Debug, Clone, Copy, PartialEq, Eq)]
pub enum Objection {
    /// One of the Rust's own refusals, by its number.
    Refused(u32),
    /// 28 for a handed list over its size, where the first check that reads it stands.
    ListTooLong,
    /// 28 that comes last: all else is in order.
    TableFull,
}

impl Objection {
    pub fn number(self) -> u32 {
        match self {
            Objection::Refused(number) => number,
            Objection::ListTooLong | Objection::TableFull => 28,
        }
    }
}

type Check = Result<(), Objection>;

pub fn check(graph: &Graph, building: &Building) -> Check {
    match building {
        Building::Var(_) => room(VARIABLES, graph.vars.len()),
        Building::Clock => room(CLOCKS, graph.clocks as usize),
        Building::Action => room(ACTIONS, graph.actions.len()),
        Building::Send(messages) => check_send(graph, messages),
        Building::Receive(vars) => check_receive(graph, vars),
        Building::Reset(action, clock) => check_reset(graph, *action, *clock),
        Building::Effect(action, var, items) => check_effect(graph, *action, *var, items),
        Building::Location(limits) => {
            check_limits(graph, listed(limits))?;
            room(LOCATIONS, graph.locations.len())
        }
        Building::Process(location) => {
            let invariants = graph.locations.get(*location as usize);
            let invariants = invariants.ok_or(Objection::Refused(3))?;
            unless(!allows_start(invariants), 9)?;
            room(PROCESSES, graph.processes.len())
        }
        Building::Initial(limits) => {
            check_limits(graph, listed(limits))?;
            unless(!allows_start(listed(limits)), 9)?;
            room(LOCATIONS, graph.locations.len())?;
            room(PROCESSES, graph.processes.len())
        }
        Building::Transition(new) => check_transition(graph, new),
    }
}

/// What an accepted call says: some have no number.
pub fn accepted(building: &Building, number: u32) -> Answer {
    match building {
        Building::Reset(..)
        | Building::Effect(..)
        | Building::Process(_)
        | Building::Transition(_) => Answer::Ok,
        _ => Answer::Number(number),
    }
}

fn unless(wrong: bool, number: u32) -> Check {
    if wrong {
        Err(Objection::Refused(number))
    } else {
        Ok(())
    }
}

fn not_over(over: bool) -> Check {
    if over {
        Err(Objection::ListTooLong)
    } else {
        Ok(())
    }
}

fn last(full: bool) -> Check {
    if full {
        Err(Objection::TableFull)
    } else {
        Ok(())
    }
}

fn room(part: usize, count: usize) -> Check {
    last(count >= SIZES[part])
}

fn listed(limits: &Option<Vec<Limit>>) -> &[Limit] {
    limits.as_deref().unwrap_or(&[])
}

fn check_limits(graph: &Graph, limits: &[Limit]) -> Check {
    not_over(limits.len() > MOST_LIMITS)?;
    unless(limits.iter().any(|limit| limit.clock >= graph.clocks), 2)
}

fn check_items(graph: &Graph, items: &Items) -> Result<Typed, Objection> {
    not_over(items.len() > MOST_ITEMS)?;
    expression::type_of(items, &graph.vars).ok_or(Objection::Refused(6))
}

fn check_send(graph: &Graph, messages: &[Items]) -> Check {
    not_over(messages.len() > MOST_VALUES)?;
    let mut too_deep = false;
    for items in messages {
        too_deep |= check_items(graph, items)?.too_deep;
    }
    last(too_deep || !draws_fit(messages))?;
    room(ACTIONS, graph.actions.len())
}

fn check_receive(graph: &Graph, vars: &[u32]) -> Check {
    not_over(vars.len() > MOST_VALUES)?;
    unless(vars.iter().any(|&var| var as usize >= graph.vars.len()), 4)?;
    room(ACTIONS, graph.actions.len())
}

fn check_reset(graph: &Graph, action: u32, clock: u32) -> Check {
    unless(action == EPSILON, 10)?;
    unless(clock >= graph.clocks, 2)?;
    let (_, resets) = plain(graph, action)?;
    last(resets.len() >= MOST_RESETS)
}

fn check_effect(graph: &Graph, action: u32, var: u32, items: &Items) -> Check {
    unless(action == EPSILON, 10)?;
    let typed = check_items(graph, items)?;
    let var = graph.vars.get(var as usize).ok_or(Objection::Refused(4))?;
    unless(var.r#type() != typed.kind, 5)?;
    let (effects, _) = plain(graph, action)?;
    let all = effects.iter().map(|(_, items)| items).chain([items]);
    last(typed.too_deep || effects.len() >= MOST_EFFECTS || !draws_fit(all))
}

type Plain<'a> = (&'a [(u32, Items)], &'a [u32]);

/// A plain action's effects and resets: 1, then 11 or 12.
fn plain(graph: &Graph, action: u32) -> Result<Plain<'_>, Objection> {
    match graph.actions.get(action as usize) {
        None => Err(Objection::Refused(1)),
        Some(Action::Send(_)) => Err(Objection::Refused(11)),
        Some(Action::Receive(_)) => Err(Objection::Refused(12)),
        Some(Action::Plain { effects, resets }) => Ok((effects, resets)),
    }
}

fn check_transition(graph: &Graph, new: &NewTransition) -> Check {
    let locations = graph.locations.len();
    unless(new.pre as usize >= locations, 3)?;
    unless(new.post as usize >= locations, 3)?;
    let known = new.action == EPSILON || (new.action as usize) < graph.actions.len();
    unless(!known, 1)?;
    check_limits(graph, listed(&new.limits))?;
    let mut too_deep = false;
    if let Some(items) = &new.guard {
        let typed = check_items(graph, items)?;
        unless(
            typed.kind != Type::Boolean || expression::draws(items) > 0,
            6,
        )?;
        too_deep = typed.too_deep;
    }
    last(too_deep)?;
    room(TRANSITIONS, graph.transitions.len())
}
