//! A random conversation on a system, on both.

use crate::chance::Chance;
use crate::expressions::their_val;
use crate::systems::Both;
use njunnemar::channel_system::{self as ours, ChannelSystemRun, CsError};
use njunnemar::program_graph::PgError;
use scan_core::channel_system as theirs;
use scan_core::program_graph as their_pg;
use scan_core::{NoValue, Val as TheirVal};
use std::any::Any;
use std::collections::VecDeque;
use std::fmt::Debug;
use std::panic::{AssertUnwindSafe, catch_unwind};

/// What was compared.
#[derive(Default)]
pub struct Tally {
    pub calls: usize,
    pub accepted: usize,
    pub events: usize,
    /// How often each number was refused, by both.
    pub refused: [usize; 32],
    /// How often the Rust panicked, and the crate refused with this number.
    pub panicked: [usize; 32],
    /// How often the Rust's queue grew past 64 values, and the crate refused with 27.
    pub no_room: usize,
}

/// A state of the Rust's, as plain data.
#[derive(Clone, Debug, PartialEq)]
struct State {
    time: u32,
    runs: Vec<(Vec<u32>, Vec<TheirVal>, Vec<u32>)>,
    queues: Vec<Vec<TheirVal>>,
}

impl State {
    fn of(run: &theirs::ChannelSystemRun) -> Self {
        let (time, graphs, queues) = run.parts();
        State {
            time,
            runs: graphs
                .iter()
                .map(|graph| {
                    let (places, vars, clocks) = graph.parts();
                    (places.iter().map(|place| place.number()).collect(), vars.to_vec(), clocks.to_vec())
                })
                .collect(),
            queues: queues.iter().map(|queue| queue.iter().copied().collect()).collect(),
        }
    }

    /// A run of the Rust's in this state, that draws from this word.
    fn run<'a>(&self, def: &'a theirs::ChannelSystem, word: u64) -> theirs::ChannelSystemRun<'a> {
        let graphs = def.program_graphs().iter().zip(&self.runs).map(|(graph, (places, vars, clocks))| {
            let places = places.iter().map(|place| their_pg::Location::numbered(*place)).collect();
            their_pg::ProgramGraphRun::from_parts(graph, places, vars.clone(), clocks.clone())
        });
        let queues: Vec<VecDeque<TheirVal>> = self.queues.iter().map(|queue| queue.iter().copied().collect()).collect();
        theirs::ChannelSystemRun::from_parts(def, self.time, graphs.collect(), queues, word)
    }
}

/// The crate's state, read by its readers.
fn read(both: &Both, run: &ChannelSystemRun) -> Result<State, CsError> {
    let mut runs = vec![];
    for (g, counts) in both.counts.iter().enumerate() {
        let graph = run.program_graph(both.ids.graphs[g])?;
        let of_graph = |refusal: PgError| CsError::ProgramGraph(both.ids.graphs[g], refusal);
        let vars = both.ids.vars[g][..counts.vars.len()].iter().map(|var| graph.value(var.in_graph()));
        let vars = vars.collect::<Result<Vec<_>, _>>().map_err(of_graph)?;
        let clocks = both.ids.clocks[g][..counts.clocks].iter().map(|clock| graph.clock(clock.in_graph()));
        let clocks = clocks.collect::<Result<Vec<_>, _>>().map_err(of_graph)?;
        let places = graph.current_states().into_iter().map(u32::from).collect();
        runs.push((places, vars.into_iter().map(their_val).collect(), clocks));
    }
    let queues = both.ids.channels[..both.widths.len()].iter().map(|channel| run.queue(*channel));
    let queues = queues.collect::<Result<Vec<_>, _>>()?;
    Ok(State { time: run.time(), runs, queues: queues.into_iter().map(|queue| queue.into_iter().map(their_val).collect()).collect() })
}

struct Talk<'a> {
    both: &'a Both,
    chance: &'a mut Chance,
    ours: ChannelSystemRun<'a>,
    theirs: State,
    tally: &'a mut Tally,
}

impl Talk<'_> {
    /// Both have answered: it has to be the same, and so have the states after it.
    fn same<T: Debug, U: Debug>(
        &mut self,
        ours: Result<T, CsError>,
        theirs: Result<Result<U, theirs::CsError>, Box<dyn Any + Send>>,
        after: State,
    ) {
        self.tally.calls += 1;
        match (ours, theirs) {
            (Ok(ours), Ok(Ok(theirs))) => {
                assert_eq!(format!("{ours:?}"), format!("{theirs:?}"));
                self.tally.accepted += 1;
                self.theirs = after;
            }
            // A queue without a bound has room for 64 values, and that is asked before the graph.
            (Err(CsError::NoRoom(channel)), Ok(_)) => {
                let (q, width) = (u32::from(channel) as usize, self.both.widths[u32::from(channel) as usize]);
                assert!(self.theirs.queues[q].len() + width > 64);
                self.tally.no_room += 1;
            }
            (Err(ours), Ok(Err(theirs))) => {
                assert_eq!(format!("{ours:?}"), format!("{theirs:?}"));
                self.tally.refused[ours.number() as usize] += 1;
                assert_eq!(after, self.theirs, "the Rust's refusal {theirs:?} changed its state");
            }
            (Err(ours), Err(panic)) => {
                let number = ours.number();
                let text = panic.downcast_ref::<String>().map_or("", String::as_str);
                let expected = match number {
                    // An expression without a value unwinds.
                    26 => panic.is::<NoValue>(),
                    // The receive with a false guard: the message is gone there, and here it is not.
                    8 => text.contains("communication has been verified before"),
                    _ => false,
                };
                assert!(expected, "ours {ours:?}, theirs panics: {text}");
                self.tally.panicked[number as usize] += 1;
            }
            (ours, Ok(theirs)) => panic!("ours {ours:?}, theirs {theirs:?}"),
            (Ok(ours), Err(_)) => panic!("ours {ours:?}, theirs panics"),
        }
        assert_eq!(read(self.both, &self.ours), Ok(self.theirs.clone()));
    }

    /// The listings, laid flat; and one of them, if there is any.
    fn listed(&mut self) -> Vec<(usize, u32, u32, u32)> {
        let mut ours = vec![];
        for (pg, action, processes) in self.ours.possible_transitions() {
            for (process, posts) in (0..).zip(processes) {
                ours.extend(posts.map(|post| (u32::from(pg) as usize, action.in_graph().into(), process, post.in_graph().into())));
            }
        }
        let run = self.theirs.run(&self.both.theirs, 0);
        let mut theirs = vec![];
        for (pg, action, processes) in run.possible_transitions() {
            for (process, posts) in (0..).zip(processes) {
                theirs.extend(posts.map(|post| (pg.number() as usize, action.in_graph().number(), process, post.in_graph().number())));
            }
        }
        assert_eq!(ours, theirs);
        self.tally.calls += 1;
        self.listed_alone();
        ours
    }

    /// The listing of a graph that has one process.
    fn listed_alone(&mut self) {
        let g = self.chance.below(4);
        let ours = self.ours.nosync_possible_transitions_pg(self.both.ids.graphs[g]).map(|listed| {
            let flat = listed.flat_map(|(action, posts)| posts.map(move |post| (action.in_graph().into(), post.in_graph().into())));
            flat.collect::<Vec<(u32, u32)>>()
        });
        let run = self.theirs.run(&self.both.theirs, 0);
        let theirs = run.nosync_possible_transitions_pg(theirs::PgId::numbered(g as u16)).map(|listed| {
            let flat = listed.flat_map(|(action, posts)| posts.map(move |post| (action.in_graph().number(), post.in_graph().number())));
            flat.collect::<Vec<(u32, u32)>>()
        });
        let after = State::of(&run);
        self.same(ours, Ok(theirs), after);
    }

    fn step(&mut self, g: usize, action: u32, posts: &[(usize, u32)]) {
        self.step_by(g, (g, action), posts);
    }

    /// A step of graph g by an action of another graph, it may be.
    fn step_by(&mut self, g: usize, (owner, action): (usize, u32), posts: &[(usize, u32)]) {
        let ids = &self.both.ids;
        let by = if action == u32::MAX { ours::Action::epsilon(ids.graphs[owner]) } else { ids.actions[owner][action as usize] };
        let to: Vec<ours::Location> = posts.iter().map(|(g, post)| ids.locations[*g][*post as usize]).collect();
        let word = self.chance.word();
        let ours = self.ours.transition_with(ids.graphs[g], by, &to, word);
        let graph = |g: usize| theirs::PgId::numbered(g as u16);
        let their_action = theirs::Action::of(graph(owner), their_pg::Action::numbered(action));
        let their_posts: Vec<theirs::Location> =
            posts.iter().map(|(g, post)| theirs::Location::of(graph(*g), their_pg::Location::numbered(*post))).collect();
        let mut run = self.theirs.run(&self.both.theirs, word);
        let theirs = catch_unwind(AssertUnwindSafe(|| run.transition(graph(g), their_action, &their_posts)));
        self.tally.events += usize::from(matches!(ours, Ok(Some(_))));
        let after = State::of(&run);
        self.same(ours, theirs, after);
    }

    /// A step from the listing, one post for each process.
    fn listed_step(&mut self) {
        let listed = self.listed();
        if listed.is_empty() {
            return self.any_step();
        }
        let (g, action, ..) = *self.chance.pick(&listed);
        let mut posts = vec![];
        for process in 0..self.both.counts[g].processes as u32 {
            let open: Vec<u32> = listed.iter().filter(|e| (e.0, e.1, e.2) == (g, action, process)).map(|e| e.3).collect();
            posts.push((g, if open.is_empty() { 0 } else { *self.chance.pick(&open) }));
        }
        self.step(g, action, &posts);
    }

    /// Any step by an action that is there. (Of one that is not, the Rust reads another graph's: docs/DIFFERENCES.md.)
    fn any_step(&mut self) {
        if self.chance.percent(3) {
            // A graph that is not there, or an action of another one.
            let (g, owner) = (self.chance.below(4), self.chance.below(3));
            if g == 3 || g != owner {
                return self.step_by(g, (owner, 0), &[(g, 0)]);
            }
        }
        let g = self.chance.below(self.both.counts.len());
        let counts = &self.both.counts[g];
        let action = if self.chance.percent(15) || counts.actions == 0 { u32::MAX } else { self.chance.below(counts.actions) as u32 };
        let by = if action == u32::MAX { None } else { self.both.ours.communication(self.both.ids.actions[g][action as usize]) };
        let mut posts = counts.processes;
        // A communication with the wrong number of posts has no test there.
        if by.is_none() && self.chance.percent(4) {
            posts = self.chance.below(4);
        }
        let mut to: Vec<(usize, u32)> = vec![];
        for _ in 0..posts {
            to.push((g, self.chance.below(counts.locations) as u32));
        }
        if self.chance.percent(3) && !to.is_empty() {
            // One of another graph, or none that is there.
            to[0] = if self.chance.percent(50) { (3 - g, 0) } else { (g, 7) };
        }
        self.step(g, action, &to);
    }

    fn wait(&mut self) {
        let most = if self.chance.percent(80) { 5 } else { 40 };
        let delta = self.chance.below(most) as u32;
        assert_eq!(self.ours.can_wait(delta), self.theirs.run(&self.both.theirs, 0).can_wait(delta));
        assert_eq!(self.ours.is_waiting(), self.theirs.run(&self.both.theirs, 0).is_waiting());
        self.tally.calls += 2;
        let mut run = self.theirs.run(&self.both.theirs, 0);
        let (ours, theirs) = (self.ours.wait(delta), run.wait(delta));
        let after = State::of(&run);
        self.same(ours, Ok(theirs), after);
    }
}

/// Talks on a system for so many steps and waits.
pub fn talk(both: &Both, chance: &mut Chance, steps: usize, tally: &mut Tally) {
    let theirs = State::of(&both.theirs.new_instance());
    let mut talk = Talk { both, chance, ours: both.ours.new_instance(), theirs, tally };
    assert_eq!(read(both, &talk.ours), Ok(talk.theirs.clone()));
    for _ in 0..steps {
        match talk.chance.below(10) {
            0..5 => talk.listed_step(),
            5..8 => talk.any_step(),
            _ => talk.wait(),
        }
    }
}
