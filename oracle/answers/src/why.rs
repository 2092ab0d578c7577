//! Why a plain step answers 8, by docs/RULES.md: the lowest process without a candidate that passes, and what fails of its first one.

use crate::answer::{Answer, EPSILON, Limit as Written};
use crate::call::{Items, Limit, Running};
use crate::running::{self, Run};
use crate::system_answer::SystemAnswer;
use crate::system_call::Step;
use crate::system_table::{State, System, SystemTable};
use crate::table::{Action, Graph, contains};
use std::fmt;

const GUARD_WORDS: usize = 8192;
const LIMIT_WORDS: usize = 3840;
const GRAPHS: usize = 8;
const ITEMS: usize = 64;
const GROUP: usize = 24;
/// Groups of limits: one for each transition, then one for each location.
const TRANSITIONS: usize = 128;
/// Where the two regions start in a graph's table.
const LIMITS_START: usize = 2090;
const GUARDS_START: usize = 5930;

/// All words of each.
pub const ALL_GUARDS: usize = GUARD_WORDS * GRAPHS;
pub const ALL_LIMITS: usize = LIMIT_WORDS * GRAPHS;

/// The two tables that are lent: the regions of every graph, one graph after the other.
pub struct Tables {
    pub guards: Vec<u64>,
    pub limits: Vec<u64>,
}

impl Default for Tables {
    fn default() -> Self {
        Tables {
            guards: vec![0; ALL_GUARDS],
            limits: vec![0; ALL_LIMITS],
        }
    }
}

impl Tables {
    pub fn copy(&mut self, table: &SystemTable) {
        for g in 0..GRAPHS {
            let words = table.graph_words(g);
            self.guards[GUARD_WORDS * g..][..GUARD_WORDS]
                .copy_from_slice(&words[GUARDS_START..][..GUARD_WORDS]);
            self.limits[LIMIT_WORDS * g..][..LIMIT_WORDS]
                .copy_from_slice(&words[LIMITS_START..][..LIMIT_WORDS]);
        }
    }

    /// Every used word is the built one.
    fn same(&self, table: &SystemTable, system: &System) -> bool {
        system.members.iter().enumerate().all(|(g, member)| {
            let words = table.graph_words(g);
            let group = |at: usize, limits: &[Limit]| {
                let lent = &self.limits[LIMIT_WORDS * g + GROUP * at..][..3 * limits.len()];
                lent == &words[LIMITS_START + GROUP * at..][..3 * limits.len()]
            };
            let graph = &member.graph;
            let transitions = graph.transitions.iter().enumerate().all(|(k, transition)| {
                let items = transition.guard.as_deref().unwrap_or(&[]);
                self.guards[GUARD_WORDS * g + ITEMS * k..][..items.len()] == *items
                    && group(k, &transition.limits)
            });
            let mut locations = graph.locations.iter().enumerate();
            transitions && locations.all(|(l, limits)| group(TRANSITIONS + l, limits))
        })
    }
}

/// What stands against a process.
#[derive(Debug, Clone, PartialEq, Eq)]
pub enum Cause {
    NoCandidate,
    Guard(Items),
    Limit(Limit),
    Invariant(Limit),
}

pub fn why(
    tables: &Tables,
    table: &SystemTable,
    system: &System,
    state: &State,
    step: &Step,
) -> Answer {
    if !tables.same(table, system) {
        return Answer::Refused(5);
    }
    let g = step.graph as usize;
    let Some(member) = system.members.get(g) else {
        return Answer::Refused(17);
    };
    if step.action.0 != step.graph {
        return Answer::Refused(18);
    }
    if step.posts.iter().any(|post| post.0 != step.graph) {
        return Answer::Refused(19);
    }
    let posts: Vec<u32> = step.posts.iter().map(|post| post.1).collect();
    let action = step.action.1;
    let run = &state.runs[g];
    let asked = Running::Step(action, posts.clone(), step.word);
    match running::call(&member.graph, run, &asked).0 {
        Answer::Refused(8) => {
            let (process, cause) = cause(&member.graph, run, action, &posts);
            Answer::System(SystemAnswer::Why(process, cause))
        }
        answer => answer,
    }
}

fn cause(graph: &Graph, run: &Run, action: u32, posts: &[u32]) -> (usize, Cause) {
    let resets: &[u32] = match graph.actions.get(action as usize) {
        Some(Action::Plain { resets, .. }) if action != EPSILON => resets,
        _ => &[],
    };
    let now = |limit: &&Limit| !holds(limit, run.clocks[limit.clock as usize]);
    let after = |limit: &&Limit| {
        let reset = resets.contains(&limit.clock);
        !holds(
            limit,
            if reset {
                0
            } else {
                run.clocks[limit.clock as usize]
            },
        )
    };
    for (p, (&place, &post)) in run.used_places().iter().zip(posts).enumerate() {
        let candidates = graph
            .transitions
            .iter()
            .filter(|t| (t.pre, t.action, t.post) == (place, action, post));
        let mut failing = candidates.map(|t| {
            if !running::guard_holds(graph, run, t.guard.as_ref()) {
                return Some(Cause::Guard(t.guard.clone().unwrap_or_default()));
            }
            let limit = t.limits.iter().find(now).cloned().map(Cause::Limit);
            let invariants = &graph.locations[post as usize];
            limit.or_else(|| invariants.iter().find(after).cloned().map(Cause::Invariant))
        });
        let Some(first) = failing.next() else {
            return (p, Cause::NoCandidate);
        };
        let Some(first) = first else {
            continue;
        };
        if failing.all(|cause| cause.is_some()) {
            return (p, first);
        }
    }
    unreachable!("a step that answers 8 has a process without a candidate that passes")
}

fn holds(limit: &Limit, time: u32) -> bool {
    contains(limit.lower, limit.upper, time)
}

impl fmt::Display for Cause {
    fn fmt(&self, f: &mut fmt::Formatter<'_>) -> fmt::Result {
        match self {
            Cause::NoCandidate => f.write_str("none"),
            Cause::Guard(items) => {
                f.write_str("guard {")?;
                items
                    .iter()
                    .try_for_each(|&word| write!(f, " {}", Token(word)))?;
                f.write_str(" }")
            }
            Cause::Limit(limit) => write!(f, "limit {}", Shown(limit)),
            Cause::Invariant(limit) => write!(f, "invariant {}", Shown(limit)),
        }
    }
}

struct Shown<'a>(&'a Limit);

impl fmt::Display for Shown<'_> {
    fn fmt(&self, f: &mut fmt::Formatter<'_>) -> fmt::Result {
        let Limit {
            clock,
            lower,
            upper,
        } = self.0;
        write!(f, "{clock} {} {}", Written(*lower), Written(*upper))
    }
}

/// An item as the line language writes it.
struct Token(u64);

impl fmt::Display for Token {
    fn fmt(&self, f: &mut fmt::Formatter<'_>) -> fmt::Result {
        const SIGNS: [&str; 14] = [
            "x", "!", "&", "|", "~", "+", "-", "*", "/", "%", "=", "<", "<=", "?",
        ];
        let payload = self.0 >> 8;
        match (self.0 & 255) as usize {
            14 => f.write_str(if payload == 0 { "f" } else { "t" }),
            15 => write!(f, "#{}", payload as u32 as i32),
            16 => write!(f, "v{payload}"),
            sign => f.write_str(SIGNS[sign.min(13)]),
        }
    }
}
