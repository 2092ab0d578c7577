//! Calls of the Rust text of channel systems: numbers go in, answers and plain states come out.

use crate::answer::Answer;
use crate::call::Building;
use crate::rust::{self, Outcome, added, cut, guarded, number_of, plain};
use crate::system_answer::SystemAnswer;
use crate::system_call::{Pair, Step, SystemBuilding, SystemRunning};
use crate::system_table::{self as table, Capacity, Kind, Parts, State, System};
use scan_core::channel_system::{
    Action, Channel, ChannelCapacity, ChannelSystem, ChannelSystemBuilder, ChannelSystemRun,
    CsError, Event, EventType, Location, Message, PgId,
};
use scan_core::program_graph::{self, PgError, ProgramGraphRun};
use scan_core::{Type, Val};
use std::{collections::VecDeque, fmt};

/// What the Rust did.
#[derive(Debug, PartialEq, Eq)]
pub enum SystemOutcome {
    /// An answer, and the state after it.
    Answered(Answer, Box<Parts>),
    /// It unwound; and what it left behind.
    Failed(Outcome, Left),
}

#[derive(Debug, PartialEq, Eq)]
pub enum Left {
    AsItWas,
    MessageGone,
    HalfMoved,
}

impl fmt::Display for SystemOutcome {
    fn fmt(&self, f: &mut fmt::Formatter<'_>) -> fmt::Result {
        match self {
            SystemOutcome::Answered(answer, _) => write!(f, "{answer}"),
            SystemOutcome::Failed(outcome, left) => {
                write!(f, "{outcome}")?;
                f.write_str(match left {
                    Left::AsItWas => "",
                    Left::MessageGone => ", and the message is gone",
                    Left::HalfMoved => ", and a part has moved",
                })
            }
        }
    }
}

/// More entries than a listing can have.
const ENDLESS: usize = 100_000;

/// A system in the Rust: its builder goes on after a build.
#[derive(Default)]
pub struct RustSystem {
    builder: ChannelSystemBuilder,
    built: Option<ChannelSystem>,
}

impl RustSystem {
    /// The same system, its parts added in stored order.
    pub fn of_system(system: &System) -> Result<Self, String> {
        let mut rust = RustSystem::default();
        for channel in &system.channels {
            rust.add_channel(channel);
        }
        for (g, member) in (0..).zip(&system.members) {
            rust.add_graph();
            let mut vars = vec![];
            let mut entries = member.communications.iter();
            for own in rust::parts(&member.graph) {
                if let Building::Var(val) = own {
                    vars.push(val);
                }
                let building = of_own(own, &mut entries);
                let answer = rust.add(g, &building, &vars);
                if !matches!(&answer, Ok(answer) if answer.accepted()) {
                    return Err(format!("{building:?} of a well-formed table: {answer:?}"));
                }
            }
        }
        Ok(rust)
    }

    pub fn add_graph(&mut self) -> Answer {
        self.built = None;
        Answer::Number(self.builder.new_program_graph().number().into())
    }

    pub fn add_channel(&mut self, channel: &table::Channel) -> Answer {
        self.built = None;
        let capacity = capacity_of(channel.capacity);
        let channel = self.builder.new_channel(channel.kinds.clone(), capacity);
        Answer::Number(channel.number().into())
    }

    /// What one channel more would be called.
    pub fn try_add_channel(&self, channel: &table::Channel) -> Answer {
        self.copy().add_channel(channel)
    }

    pub fn try_add_graph(&self) -> Answer {
        self.copy().add_graph()
    }

    fn copy(&self) -> Self {
        RustSystem {
            builder: self.builder.clone(),
            built: None,
        }
    }

    /// Adds to the builder. `vars` are the variables that the graph has, for their types.
    pub fn add(
        &mut self,
        graph: u32,
        building: &SystemBuilding,
        vars: &[Val],
    ) -> Result<Answer, String> {
        self.built = None;
        guarded(|| self.added(pg(graph), building, vars)).map_err(|outcome| outcome.to_string())
    }

    pub fn try_add(
        &self,
        graph: u32,
        building: &SystemBuilding,
        vars: &[Val],
    ) -> Result<Answer, String> {
        self.copy().add(graph, building, vars)
    }

    fn added(&mut self, pg_id: PgId, building: &SystemBuilding, vars: &[Val]) -> Answer {
        let builder = &mut self.builder;
        let action = match building {
            SystemBuilding::Own(Building::Action) => builder.new_action(pg_id),
            SystemBuilding::Own(own) => {
                let answer = builder.on_graph(pg_id, |graph| added(graph, own, vars));
                return answer.unwrap_or_else(refused);
            }
            SystemBuilding::Send(q, messages) => {
                let messages = messages
                    .iter()
                    .map(|items| rust::effect(items, vars))
                    .collect();
                builder.new_send(pg_id, channel(*q), messages)
            }
            SystemBuilding::Receive(q, vars) => {
                let vars = vars.iter().map(|&var| rust::var_of(var)).collect();
                builder.new_receive(pg_id, channel(*q), vars)
            }
            SystemBuilding::Probe(q, kind) => {
                let message = match kind {
                    Kind::Full => Message::ProbeFullQueue,
                    _ => Message::ProbeEmptyQueue,
                };
                builder.new_probe(pg_id, channel(*q), message)
            }
        };
        match action {
            Ok(action) => Answer::Number(action.in_graph().number()),
            Err(error) => refused(error),
        }
    }

    pub fn kind(&mut self, graph: u32, var: u32) -> Answer {
        let kind = self
            .builder
            .on_graph(pg(graph), |graph| rust::kind_in(graph, var));
        kind.unwrap_or_else(refused)
    }

    pub fn build(&mut self) -> Result<&ChannelSystem, String> {
        if self.built.is_none() {
            let built = guarded(|| self.builder.build()).map_err(|outcome| outcome.to_string())?;
            self.built = Some(built);
        }
        Ok(self.built.as_ref().expect("just built"))
    }

    pub fn new_state(&mut self, fresh: &Parts) -> Result<Parts, String> {
        let system = self.build()?;
        guarded(|| parts_of(&system.new_instance(), fresh)).map_err(|outcome| outcome.to_string())
    }

    pub fn channel(&mut self, q: u32) -> Result<Answer, String> {
        let found = self.build()?.channel(channel(q));
        Ok(match found {
            Ok((types, capacity)) => Answer::System(SystemAnswer::Channel(
                types.to_vec(),
                capacity_from(capacity),
            )),
            Err(error) => refused(error),
        })
    }

    /// Makes the call on a state made of these parts.
    pub fn call(
        &mut self,
        state: &State,
        running: &SystemRunning,
    ) -> Result<SystemOutcome, String> {
        let system = self.build()?;
        let before = state.parts();
        let word = match running {
            SystemRunning::Step(step) => step.word,
            _ => 0,
        };
        let mut run = run_of(system, &before, word);
        let answer = guarded(|| called(&mut run, running));
        let after = parts_of(&run, &before);
        Ok(match answer {
            Ok(answer) => SystemOutcome::Answered(answer, Box::new(after)),
            Err(outcome) => SystemOutcome::Failed(outcome, left(&before, &after)),
        })
    }
}

/// How many values a bounded queue of this width takes before a send is refused, found out by sending. None past `most`.
pub fn filled(width: usize, capacity: u32, most: usize) -> Option<usize> {
    let mut rust = RustSystem::default();
    rust.add_graph();
    rust.add_channel(&table::Channel {
        kinds: vec![Type::Boolean; width],
        capacity: Capacity::Bounded(capacity),
    });
    let truth = crate::expression::BOOLEAN;
    let new_loop = crate::call::NewTransition {
        pre: 0,
        action: 0,
        post: 0,
        guard: None,
        limits: None,
        autonomous: false,
    };
    for building in [
        SystemBuilding::Own(Building::Initial(None)),
        SystemBuilding::Send(0, vec![vec![truth]; width]),
        SystemBuilding::Own(Building::Transition(new_loop)),
    ] {
        rust.add(0, &building, &[]).expect("a known part");
    }
    let system = rust.builder.build();
    // Made of parts: the text's own call would ask for the whole capacity at once.
    let graphs = system.program_graphs().iter();
    let mut run = ChannelSystemRun::from_parts(
        &system,
        0,
        graphs.map(|graph| graph.new_instance()).collect(),
        vec![VecDeque::new()],
        0,
    );
    let step = Step {
        graph: 0,
        action: (0, 0),
        posts: vec![(0, 0)],
        word: 0,
    };
    loop {
        let before = run.parts().2[0].len();
        if before > most {
            return None;
        }
        if stepped(&mut run, &step) == Answer::Refused(20) || run.parts().2[0].len() == before {
            return Some(before);
        }
    }
}

/// A communication gets the entry that stands for its action.
fn of_own<'a>(
    own: Building,
    entries: &mut impl Iterator<Item = &'a Option<table::Communication>>,
) -> SystemBuilding {
    if !matches!(
        own,
        Building::Action | Building::Send(_) | Building::Receive(_)
    ) {
        return SystemBuilding::Own(own);
    }
    let entry = entries.next().expect("an entry for each action");
    match (own, entry) {
        (Building::Send(messages), Some(entry)) if entry.kind == Kind::Send => {
            SystemBuilding::Send(entry.channel as u32, messages)
        }
        (Building::Send(_), Some(entry)) => SystemBuilding::Probe(entry.channel as u32, entry.kind),
        (Building::Receive(vars), Some(entry)) => {
            SystemBuilding::Receive(entry.channel as u32, vars)
        }
        (own, _) => SystemBuilding::Own(own),
    }
}

fn left(before: &Parts, after: &Parts) -> Left {
    if before.queues != after.queues {
        Left::MessageGone
    } else if before != after {
        Left::HalfMoved
    } else {
        Left::AsItWas
    }
}

fn run_of<'def>(def: &'def ChannelSystem, parts: &Parts, word: u64) -> ChannelSystemRun<'def> {
    let graphs = def.program_graphs().iter().zip(&parts.runs);
    ChannelSystemRun::from_parts(
        def,
        parts.time,
        graphs
            .map(|(graph, run)| {
                ProgramGraphRun::from_parts(
                    graph,
                    rust::locations_of(run.used_places()),
                    run.used_vars().to_vec(),
                    run.used_clocks().to_vec(),
                )
            })
            .collect(),
        parts
            .queues
            .iter()
            .map(|queue| queue.iter().copied().collect())
            .collect(),
        word,
    )
}

/// A state as plain data. What stands unused is as it was before.
fn parts_of(run: &ChannelSystemRun, before: &Parts) -> Parts {
    let (time, graphs, queues) = run.parts();
    Parts {
        time,
        runs: graphs
            .iter()
            .zip(&before.runs)
            .map(|(graph, before)| plain(graph, before))
            .collect(),
        queues: queues
            .iter()
            .map(|queue| queue.iter().copied().collect())
            .collect(),
    }
}

fn called(run: &mut ChannelSystemRun, running: &SystemRunning) -> Answer {
    match running {
        SystemRunning::Step(step) => stepped(run, step),
        SystemRunning::Wait(delta) => match run.wait(*delta) {
            Ok(()) => Answer::Ok,
            Err(CsError::ProgramGraph(pg_id, PgError::Invariant)) => {
                Answer::System(SystemAnswer::Objects(pg_id.number().into()))
            }
            Err(error) => refused(error),
        },
        SystemRunning::Can(delta) => Answer::yes_or_no(run.can_wait(*delta)),
        SystemRunning::Waiting => Answer::yes_or_no(run.is_waiting()),
        SystemRunning::List(k) => entry(run, *k),
        SystemRunning::Pg(graph, k) => entry_of(run, pg(*graph), *k),
        SystemRunning::Solo(graph, k) => solo_entry(run, pg(*graph), *k),
        SystemRunning::Time => Answer::Number(run.time()),
        SystemRunning::Run(graph) => match run.program_graph(pg(*graph)) {
            Ok(graph) => {
                let run = plain(graph, &crate::running::Run::zeros());
                Answer::System(SystemAnswer::Run(Box::new(run)))
            }
            Err(error) => refused(error),
        },
        // The Rust has no reader of queues.
        SystemRunning::Queue(..) => Answer::End,
    }
}

fn stepped(run: &mut ChannelSystemRun, step: &Step) -> Answer {
    let action = Action::of(
        pg(step.action.0),
        program_graph::Action::numbered(step.action.1),
    );
    let posts: Vec<Location> = step.posts.iter().map(|&post| location(post)).collect();
    match run.transition(pg(step.graph), action, &posts) {
        Ok(None) => Answer::Ok,
        Ok(Some(event)) => Answer::System(event_of(event)),
        Err(error) => refused(error),
    }
}

fn event_of(event: Event) -> SystemAnswer {
    let (kind, vals) = match event.event_type {
        EventType::Send(vals) => (Kind::Send, vals),
        EventType::Receive(vals) => (Kind::Receive, vals),
        EventType::ProbeEmptyQueue => (Kind::Empty, vec![]),
        EventType::ProbeFullQueue => (Kind::Full, vec![]),
    };
    let (graph, channel) = (event.pg_id.number(), event.channel.number());
    SystemAnswer::Event(graph.into(), channel.into(), kind, vals)
}

/// Entry k of the listing, laid flat.
fn entry(run: &ChannelSystemRun, k: u32) -> Answer {
    let entries = run
        .possible_transitions()
        .flat_map(|(pg_id, action, processes)| {
            (0..).zip(processes).flat_map(move |(process, posts)| {
                posts.map(move |post| {
                    SystemAnswer::Entry(
                        pg_id.number().into(),
                        action.in_graph().number(),
                        process,
                        post.in_graph().number(),
                    )
                })
            })
        });
    let mut entries = entries.take(ENDLESS);
    entries.nth(k as usize).map_or(Answer::End, Answer::System)
}

fn entry_of(run: &ChannelSystemRun, pg_id: PgId, k: u32) -> Answer {
    match run.possible_transitions_pg(pg_id) {
        Err(error) => refused(error),
        Ok(actions) => actions
            .flat_map(|(action, processes)| {
                (0..).zip(processes).flat_map(move |(process, posts)| {
                    posts.map(move |post| {
                        let action = action.in_graph().number();
                        Answer::Entry(action, process, post.in_graph().number())
                    })
                })
            })
            .nth(k as usize)
            .unwrap_or(Answer::End),
    }
}

fn solo_entry(run: &ChannelSystemRun, pg_id: PgId, k: u32) -> Answer {
    match run.nosync_possible_transitions_pg(pg_id) {
        Err(error) => refused(error),
        Ok(actions) => actions
            .flat_map(|(action, posts)| {
                posts.map(move |post| {
                    let action = action.in_graph().number();
                    Answer::Entry(action, 0, post.in_graph().number())
                })
            })
            .nth(k as usize)
            .unwrap_or(Answer::End),
    }
}

fn refused(error: CsError) -> Answer {
    Answer::Refused(match error {
        CsError::ProgramGraph(_, error) => number_of(error),
        CsError::MissingPg(_) => 17,
        CsError::ActionNotInPg(..) => 18,
        CsError::LocationNotInPg(..) => 19,
        CsError::OutOfCapacity(_) => 20,
        CsError::Empty(_) => 21,
        CsError::NotEmpty(_) => 22,
        CsError::NotFull(_) => 23,
        CsError::ProbingHandshakeChannel(_) => 24,
        CsError::ProbingInfiniteQueue(_) => 25,
        CsError::MissingChannel(_) => 30,
        CsError::NoCommunication(_)
        | CsError::VarNotInPg(..)
        | CsError::ClockNotInPg(..)
        | CsError::DifferentPgs(..)
        | CsError::ActionIsCommunication(_)
        | CsError::Type(_) => panic!("an error that the text never makes"),
    })
}

/// The Rust has 16 bits for graphs and channels. A larger number names nothing, and the largest of 16 bits names nothing too.
fn pg(number: u32) -> PgId {
    PgId::numbered(cut(number))
}

fn channel(number: u32) -> Channel {
    Channel::numbered(cut(number))
}

fn location((graph, location): Pair) -> Location {
    Location::of(pg(graph), program_graph::Location::numbered(location))
}

fn capacity_of(capacity: Capacity) -> ChannelCapacity {
    match capacity {
        Capacity::Bounded(most) => ChannelCapacity::Queue(Some(most as usize)),
        Capacity::Unbounded => ChannelCapacity::Queue(None),
        Capacity::Sink => ChannelCapacity::Sink,
    }
}

fn capacity_from(capacity: ChannelCapacity) -> Capacity {
    match capacity {
        ChannelCapacity::Queue(Some(most)) => Capacity::Bounded(most as u32),
        ChannelCapacity::Queue(None) => Capacity::Unbounded,
        ChannelCapacity::Sink => Capacity::Sink,
    }
}
