//! Running a system by docs/RULES.md, on a well-formed table whose graphs all have a process and a state that fits it.

use crate::answer::Answer;
use crate::call::Running;
use crate::running::{self, Run};
use crate::system_answer::SystemAnswer;
use crate::system_call::{Step, SystemRunning};
use crate::system_table::{Capacity, Channel, Communication, Kind, ROOM, State, System};
use crate::table::Graph;
use scan_core::Val;

/// The answer, and the state after it.
pub fn call(system: &System, state: &State, running: &SystemRunning) -> (Answer, State) {
    let on = On { system, state };
    let read = match running {
        SystemRunning::Step(step) => return or_refused(state, on.step(step)),
        SystemRunning::Wait(delta) => return on.wait(*delta),
        SystemRunning::Can(delta) => Answer::yes_or_no(on.can_wait(*delta)),
        SystemRunning::Waiting => Answer::yes_or_no(on.is_waiting()),
        SystemRunning::List(k) => on.entry(*k),
        SystemRunning::Pg(graph, k) => on.entry_of(*graph, *k),
        SystemRunning::Solo(graph, k) => match on.run(*graph) {
            Some(run) if run.processes != 1 => Answer::Refused(16),
            _ => on.entry_of(*graph, *k),
        },
        SystemRunning::Time => Answer::Number(state.time),
        SystemRunning::Run(graph) => match on.run(*graph) {
            Some(run) => Answer::System(SystemAnswer::Run(Box::new(run.clone()))),
            None => Answer::Refused(17),
        },
        SystemRunning::Queue(channel, k) => on.value(*channel, *k),
    };
    (read, state.clone())
}

/// The action's communication, if it is one. An unknown action and EPSILON are none.
pub fn communication(system: &System, graph: u32, action: u32) -> Option<Communication> {
    let member = &system.members[graph as usize];
    *member.communications.get(action as usize)?
}

/// Whether the time or a clock passes 32 bits in a wait. The Rust has no rule for it.
pub fn overflows(state: &State, delta: u32) -> bool {
    state.time.checked_add(delta).is_none()
        || state.runs.iter().any(|run| running::overflows(run, delta))
}

struct On<'a> {
    system: &'a System,
    state: &'a State,
}

type Stepped = Result<(Answer, State), u32>;

fn or_refused(state: &State, stepped: Stepped) -> (Answer, State) {
    stepped.unwrap_or_else(|number| (Answer::Refused(number), state.clone()))
}

impl On<'_> {
    fn run(&self, graph: u32) -> Option<&Run> {
        self.state.runs.get(graph as usize)
    }

    fn graph(&self, graph: usize) -> &Graph {
        &self.system.members[graph].graph
    }

    fn step(&self, step: &Step) -> Stepped {
        if step.graph as usize >= self.system.members.len() {
            return Err(17);
        }
        if step.action.0 != step.graph {
            return Err(18);
        }
        if step.posts.iter().any(|post| post.0 != step.graph) {
            return Err(19);
        }
        match communication(self.system, step.graph, step.action.1) {
            None => self.plain(step),
            Some(communication) => self.communicate(step, communication),
        }
    }

    fn plain(&self, step: &Step) -> Stepped {
        let (answer, run) =
            self.in_graph(step, |posts| Running::Step(step.action.1, posts, step.word))?;
        Ok((answer, self.moved(step, run)))
    }

    /// The channel test, then what the graph says; only then the queue.
    fn communicate(&self, step: &Step, communication: Communication) -> Stepped {
        let Communication { kind, channel } = communication;
        let queue = &self.state.queues[channel];
        let row = &self.system.channels[channel];
        channel_test(kind, row, queue.values.len())?;
        let width = row.width();
        let (vals, run) = match kind {
            Kind::Receive => {
                let vals = queue.values[..width].to_vec();
                let (_, run) = self.in_graph(step, |posts| {
                    Running::Receive(step.action.1, posts, vals.clone())
                })?;
                (vals, run)
            }
            _ => {
                let (answer, run) =
                    self.in_graph(step, |posts| Running::Send(step.action.1, posts, step.word))?;
                let Answer::Values(vals) = answer else {
                    unreachable!("a send answers its values");
                };
                (vals, run)
            }
        };
        let mut next = self.moved(step, run);
        match kind {
            Kind::Send if row.capacity != Capacity::Sink => next.queues[channel].push(&vals),
            Kind::Receive => next.queues[channel].pop(width),
            _ => {}
        }
        let event = SystemAnswer::Event(step.graph, channel as u32, kind, vals);
        Ok((Answer::System(event), next))
    }

    fn in_graph(
        &self,
        step: &Step,
        call: impl FnOnce(Vec<u32>) -> Running,
    ) -> Result<(Answer, Run), u32> {
        let g = step.graph as usize;
        let posts = step.posts.iter().map(|post| post.1).collect();
        match running::call(self.graph(g), &self.state.runs[g], &call(posts)) {
            (Answer::Refused(number), _) => Err(number),
            accepted => Ok(accepted),
        }
    }

    fn moved(&self, step: &Step, run: Run) -> State {
        let mut next = self.state.clone();
        next.runs[step.graph as usize] = run;
        next
    }

    fn each(&self) -> impl Iterator<Item = (&Graph, &Run)> {
        let graphs = self.system.members.iter().map(|member| &member.graph);
        graphs.zip(&self.state.runs)
    }

    fn wait(&self, delta: u32) -> (Answer, State) {
        if overflows(self.state, delta) {
            return (Answer::Refused(26), self.state.clone());
        }
        let mut next = self.state.clone();
        next.time += delta;
        for (g, (graph, run)) in (0..).zip(self.each()) {
            let (answer, run) = running::call(graph, run, &Running::Wait(delta));
            if answer != Answer::Ok {
                let objects = Answer::System(SystemAnswer::Objects(g));
                return (objects, self.state.clone());
            }
            next.runs[g as usize] = run;
        }
        (Answer::Ok, next)
    }

    fn can_wait(&self, delta: u32) -> bool {
        !overflows(self.state, delta) && self.each().all(|one| says(one, &Running::Can(delta)))
    }

    fn is_waiting(&self) -> bool {
        self.can_wait(1) && self.each().any(|one| says(one, &Running::Waiting))
    }

    /// The entries of a graph, without communications that the channel leaves out.
    fn entries(&self, g: usize) -> impl Iterator<Item = (u32, u32, u32)> {
        let entries = running::entries(self.graph(g), &self.state.runs[g]);
        entries.into_iter().filter(move |&(action, ..)| {
            communication(self.system, g as u32, action).is_none_or(|entry| {
                let stored = self.state.queues[entry.channel].values.len();
                is_listed(entry.kind, &self.system.channels[entry.channel], stored)
            })
        })
    }

    fn entry(&self, k: u32) -> Answer {
        let graphs = 0..self.system.members.len();
        let mut all = graphs.flat_map(|g| {
            self.entries(g).map(move |(action, process, post)| {
                SystemAnswer::Entry(g as u32, action, process, post)
            })
        });
        all.nth(k as usize).map_or(Answer::End, Answer::System)
    }

    fn entry_of(&self, graph: u32, k: u32) -> Answer {
        if self.run(graph).is_none() {
            return Answer::Refused(17);
        }
        let entry = self.entries(graph as usize).nth(k as usize);
        entry.map_or(Answer::End, |(a, p, l)| Answer::Entry(a, p, l))
    }

    fn value(&self, channel: u32, k: u32) -> Answer {
        match self.state.queues.get(channel as usize) {
            None => Answer::Refused(30),
            Some(queue) => {
                let val: Option<&Val> = queue.values.get(k as usize);
                val.map_or(Answer::End, |val| Answer::Values(vec![*val]))
            }
        }
    }
}

fn says((graph, run): (&Graph, &Run), question: &Running) -> bool {
    running::call(graph, run, question).0 == Answer::Yes
}

/// What a step asks of the channel before it asks the graph.
fn channel_test(kind: Kind, channel: &Channel, stored: usize) -> Result<(), u32> {
    let refused = match (kind, channel.capacity) {
        (Kind::Send, Capacity::Bounded(most)) if stored as u64 >= u64::from(most) => 20,
        (Kind::Send, Capacity::Unbounded) if stored + channel.width() > ROOM => 27,
        (Kind::Send, _) => return Ok(()),
        (Kind::Receive, _) if stored == 0 => 21,
        (Kind::Receive, _) => return Ok(()),
        (Kind::Empty | Kind::Full, Capacity::Bounded(0)) => 24,
        (Kind::Empty, _) if stored > 0 => 22,
        (Kind::Empty, _) => return Ok(()),
        (Kind::Full, Capacity::Unbounded) => 25,
        (Kind::Full, Capacity::Sink) => 23,
        (Kind::Full, Capacity::Bounded(most)) if (stored as u64) < u64::from(most) => 23,
        (Kind::Full, Capacity::Bounded(_)) => return Ok(()),
    };
    Err(refused)
}

/// What the listing asks of the channel, which is something else.
fn is_listed(kind: Kind, channel: &Channel, stored: usize) -> bool {
    let stored = stored as u64;
    match (channel.capacity, kind) {
        (Capacity::Sink, Kind::Send | Kind::Empty) => true,
        (Capacity::Sink, Kind::Receive | Kind::Full) => false,
        (_, Kind::Receive) => stored > 0,
        (_, Kind::Empty) => stored == 0,
        (Capacity::Unbounded, Kind::Send) => true,
        (Capacity::Unbounded, Kind::Full) => false,
        (Capacity::Bounded(most), Kind::Send) => stored < u64::from(most),
        (Capacity::Bounded(most), Kind::Full) => stored == u64::from(most),
    }
}
