//! Running one graph by docs/RULES.md, on a well-formed table that has a process and a run that fits it.

use crate::answer::{Answer, EPSILON};
use crate::call::{Items, Limit, Running};
use crate::expression;
use crate::table::{Action, Graph, Transition, contains, lower_met, upper_met};
use scan_core::Val;

/// A run as plain data, with its own counts. What stands from a count on is not looked at.
#[derive(Debug, Clone, PartialEq, Eq)]
pub struct Run {
    pub processes: usize,
    pub variables: usize,
    pub timers: usize,
    pub places: [u32; 4],
    pub vars: [Val; 16],
    pub clocks: [u32; 8],
}

impl Run {
    /// A run of no graph: zeros.
    pub fn zeros() -> Self {
        Run {
            processes: 0,
            variables: 0,
            timers: 0,
            places: [0; 4],
            vars: [Val::Boolean(false); 16],
            clocks: [0; 8],
        }
    }

    pub fn fresh(graph: &Graph) -> Self {
        let mut run = Run::zeros();
        run.processes = graph.processes.len();
        run.variables = graph.vars.len();
        run.timers = graph.clocks as usize;
        run.places[..run.processes].copy_from_slice(&graph.processes);
        run.vars[..run.variables].copy_from_slice(&graph.vars);
        run
    }

    /// The test behind 32, beside that of the table.
    pub fn fits(&self, graph: &Graph) -> bool {
        self.processes == graph.processes.len()
            && self.variables == graph.vars.len()
            && self.timers == graph.clocks as usize
            && self
                .used_places()
                .iter()
                .all(|&place| (place as usize) < graph.locations.len())
            && self
                .used_vars()
                .iter()
                .zip(&graph.vars)
                .all(|(val, start)| val.r#type() == start.r#type())
    }

    pub fn used_places(&self) -> &[u32] {
        &self.places[..self.processes]
    }

    pub fn used_vars(&self) -> &[Val] {
        &self.vars[..self.variables]
    }

    pub fn used_clocks(&self) -> &[u32] {
        &self.clocks[..self.timers]
    }
}

/// The answer, and the run after it.
pub fn call(graph: &Graph, run: &Run, running: &Running) -> (Answer, Run) {
    let on = On { graph, run };
    let stepped = match running {
        Running::Step(action, posts, word) => on.step(*action, posts, *word),
        Running::Send(action, posts, word) => on.send(*action, posts, *word),
        Running::Receive(action, posts, vals) => on.receive(*action, posts, vals),
        Running::Wait(delta) => on.wait(*delta),
        Running::Can(delta) => return (Answer::yes_or_no(on.can_wait(*delta)), run.clone()),
        Running::Waiting => return (Answer::yes_or_no(on.is_waiting()), run.clone()),
        Running::List(k) => return (on.entry(*k), run.clone()),
        Running::Solo(_) if run.processes != 1 => Err(16),
        Running::Solo(k) => return (on.entry(*k), run.clone()),
        Running::Value(var) => {
            let value = run.used_vars().get(*var as usize);
            let value = value.map(|val| Answer::Values(vec![*val]));
            return (value.unwrap_or(Answer::Refused(4)), run.clone());
        }
        Running::Clock(clock) => {
            let time = run.used_clocks().get(*clock as usize);
            let time = time.map(|time| Answer::Number(*time));
            return (time.unwrap_or(Answer::Refused(2)), run.clone());
        }
        Running::Places => {
            return (Answer::Places(run.used_places().to_vec()), run.clone());
        }
    };
    match stepped {
        Ok(accepted) => accepted,
        Err(number) => (Answer::Refused(number), run.clone()),
    }
}

/// The listing: action, process, post.
pub fn entries(graph: &Graph, run: &Run) -> Vec<(u32, u32, u32)> {
    On { graph, run }.entries().collect()
}

/// Whether a clock passes 32 bits in a wait. The Rust has no rule for it.
pub fn overflows(run: &Run, delta: u32) -> bool {
    run.used_clocks()
        .iter()
        .any(|clock| clock.checked_add(delta).is_none())
}

/// A guard without a value is not satisfied.
pub fn guard_holds(graph: &Graph, run: &Run, guard: Option<&Items>) -> bool {
    On { graph, run }.guard_holds(guard)
}

struct On<'a> {
    graph: &'a Graph,
    run: &'a Run,
}

type Stepped = Result<(Answer, Run), u32>;

impl On<'_> {
    fn step(&self, action: u32, posts: &[u32], word: u64) -> Stepped {
        if posts.len() != self.run.processes {
            return Err(7);
        }
        if posts
            .iter()
            .any(|&post| post as usize >= self.graph.locations.len())
        {
            return Err(3);
        }
        if action == EPSILON {
            self.ready(action, posts, &[])?;
            return Ok((Answer::Ok, self.moved(posts)));
        }
        let Some(row) = self.graph.actions.get(action as usize) else {
            return Err(1);
        };
        let Action::Plain { effects, resets } = row else {
            return Err(13);
        };
        self.ready(action, posts, resets)?;
        let mut next = self.moved(posts);
        run_effects(effects, &mut next, word)?;
        for &clock in resets {
            next.clocks[clock as usize] = 0;
        }
        Ok((Answer::Ok, next))
    }

    fn send(&self, action: u32, posts: &[u32], mut word: u64) -> Stepped {
        self.ready_to_communicate(action, posts, 14)?;
        let Action::Send(messages) = &self.graph.actions[action as usize] else {
            return Err(14);
        };
        let vals: Option<Vec<Val>> = messages
            .iter()
            .map(|items| expression::value_of(items, self.run.used_vars(), &mut word))
            .collect();
        Ok((Answer::Values(vals.ok_or(26_u32)?), self.moved(posts)))
    }

    fn receive(&self, action: u32, posts: &[u32], vals: &[Val]) -> Stepped {
        self.ready_to_communicate(action, posts, 15)?;
        let Action::Receive(vars) = &self.graph.actions[action as usize] else {
            return Err(15);
        };
        let kind = |var: &u32| self.run.vars[*var as usize].r#type();
        if !vars
            .iter()
            .map(kind)
            .eq(vals.iter().map(|val| val.r#type()))
        {
            return Err(5);
        }
        let mut next = self.moved(posts);
        for (&var, &val) in vars.iter().zip(vals) {
            next.vars[var as usize] = val;
        }
        Ok((Answer::Ok, next))
    }

    /// EPSILON is neither kind; then 7, then 8. Clocks are read unreset, whatever the action is.
    fn ready_to_communicate(&self, action: u32, posts: &[u32], neither: u32) -> Result<(), u32> {
        if action == EPSILON {
            return Err(neither);
        }
        if posts.len() != self.run.processes {
            return Err(7);
        }
        self.ready(action, posts, &[])
    }

    fn moved(&self, posts: &[u32]) -> Run {
        let mut next = self.run.clone();
        next.places[..posts.len()].copy_from_slice(posts);
        next
    }

    /// Every process has a candidate that passes.
    fn ready(&self, action: u32, posts: &[u32], resets: &[u32]) -> Result<(), u32> {
        for (&place, &post) in self.run.used_places().iter().zip(posts) {
            let mut candidates = self.from(place, action).filter(|t| t.post == post);
            if !candidates.any(|candidate| self.passes(candidate, resets)) {
                return Err(8);
            }
        }
        Ok(())
    }

    fn from(&self, place: u32, action: u32) -> impl Iterator<Item = &Transition> {
        self.graph
            .transitions
            .iter()
            .filter(move |t| t.pre == place && t.action == action)
    }

    fn passes(&self, transition: &Transition, resets: &[u32]) -> bool {
        let clocks = &self.run.clocks;
        let after = |clock: u32| {
            if resets.contains(&clock) {
                0
            } else {
                clocks[clock as usize]
            }
        };
        let invariants = &self.graph.locations[transition.post as usize];
        self.guard_holds(transition.guard.as_ref())
            && all_hold(&transition.limits, |clock| clocks[clock as usize])
            && all_hold(invariants, after)
    }

    fn guard_holds(&self, guard: Option<&Items>) -> bool {
        let Some(items) = guard else {
            return true;
        };
        let value = expression::value_of(items, self.run.used_vars(), &mut 0);
        value == Some(Val::Boolean(true))
    }

    fn wait(&self, delta: u32) -> Stepped {
        if overflows(self.run, delta) {
            return Err(26);
        }
        if !self.can_wait(delta) {
            return Err(9);
        }
        let mut next = self.run.clone();
        for clock in &mut next.clocks[..next.timers] {
            *clock += delta;
        }
        Ok((Answer::Ok, next))
    }

    fn can_wait(&self, delta: u32) -> bool {
        !overflows(self.run, delta)
            && self.run.used_places().iter().all(|&place| {
                let invariants = &self.graph.locations[place as usize];
                all_hold(invariants, |clock| self.run.clocks[clock as usize] + delta)
            })
    }

    fn is_waiting(&self) -> bool {
        self.can_wait(1)
            && self.shared_actions().any(|action| {
                let mut places = self.run.used_places().iter();
                places.any(|&place| self.from(place, action).any(|t| self.unlocks(t)))
            })
    }

    /// Some lower bound is not yet met and no upper bound is passed: among the limits, or among the post's invariants.
    fn unlocks(&self, transition: &Transition) -> bool {
        let time = |limit: &Limit| self.run.clocks[limit.clock as usize];
        let later = |limits: &[Limit]| {
            limits
                .iter()
                .any(|limit| !lower_met(limit.lower, time(limit)))
                && limits
                    .iter()
                    .all(|limit| upper_met(limit.upper, time(limit)))
        };
        later(&transition.limits) || later(&self.graph.locations[transition.post as usize])
    }

    /// The actions that every process's location has, ascending; EPSILON is the last.
    fn shared_actions(&self) -> impl Iterator<Item = u32> {
        (0..self.graph.actions.len() as u32)
            .chain([EPSILON])
            .filter(|&action| {
                let mut places = self.run.used_places().iter();
                places.all(|&place| self.from(place, action).next().is_some())
            })
    }

    /// Entry k of the listing.
    fn entry(&self, k: u32) -> Answer {
        match self.entries().nth(k as usize) {
            Some((action, process, post)) => Answer::Entry(action, process, post),
            None => Answer::End,
        }
    }

    fn entries(&self) -> impl Iterator<Item = (u32, u32, u32)> {
        self.shared_actions().flat_map(move |action| {
            let resets = match self.graph.actions.get(action as usize) {
                Some(Action::Plain { resets, .. }) => resets.as_slice(),
                _ => &[],
            };
            (0..)
                .zip(self.run.used_places())
                .flat_map(move |(process, &place)| {
                    self.from(place, action)
                        .filter(|t| self.passes(t, resets))
                        .map(move |t| (action, process, t.post))
                })
        })
    }
}

fn all_hold(limits: &[Limit], time: impl Fn(u32) -> u32) -> bool {
    limits
        .iter()
        .all(|limit| contains(limit.lower, limit.upper, time(limit.clock)))
}

/// Each effect sees the ones before; one without a value answers 26.
fn run_effects(effects: &[(u32, Items)], next: &mut Run, mut word: u64) -> Result<(), u32> {
    for (var, items) in effects {
        let value = expression::value_of(items, next.used_vars(), &mut word);
        next.vars[*var as usize] = value.ok_or(26_u32)?;
    }
    Ok(())
}
