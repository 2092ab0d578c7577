//! The Rust's side: the text of scan_core, fully optimised. Each call that is counted stands in a function of its own that is not
//! inlined, as the port's do.

use crate::counted;
use crate::graphs::{Call, Item, Items, Limit, Op};
use crate::marks::Stretch;
use crate::port::CAPACITY;
use rand::rngs::SmallRng;
use scan_core::channel_system::{
    Action as CsAction, Channel, ChannelCapacity, ChannelSystem, ChannelSystemBuilder,
    ChannelSystemRun, CsError, Event, EventType, Location as CsLocation, PgId,
};
use scan_core::program_graph::{
    Action, Clock, Location, PgError, ProgramGraph, ProgramGraphBuilder, ProgramGraphRun, Var,
};
use scan_core::{Binary, BooleanExpr, Expression, Item as ScanItem, TimeRange, Type, Val};
use std::ops::Bound;

// ---- building

fn items(items: &Items) -> [ScanItem<Var>; 3] {
    items.map(|item| match item {
        Item::Var(v) => ScanItem::Var(Var::numbered(v as u16), Type::Integer),
        Item::Number(n) => ScanItem::Const(Val::Integer(n)),
        Item::Add => ScanItem::Binary(Binary::Add),
        Item::Less => ScanItem::Binary(Binary::Less),
    })
}

fn limits(limit: Limit) -> Vec<(Clock, TimeRange)> {
    let range = match limit {
        Limit::None => return vec![],
        Limit::From(time) => TimeRange::new((Bound::Included(time), Bound::Unbounded)),
        Limit::To(time) => TimeRange::new((Bound::Unbounded, Bound::Included(time))),
    };
    vec![(Clock::numbered(0), range)]
}

/// The building calls with their expressions and limits made.
enum Ready {
    Clock,
    Var(i32),
    Action,
    Initial,
    Location(Vec<(Clock, TimeRange)>),
    Effect(Action, Var, Expression<Var>),
    Reset(Action, Clock),
    Send(Vec<Expression<Var>>),
    Receive(Vec<Var>),
    Transition(
        Location,
        Action,
        Location,
        Option<BooleanExpr<Var>>,
        Vec<(Clock, TimeRange)>,
    ),
}

fn ready(op: &Op) -> Ready {
    let var = |v: u32| Var::numbered(v as u16);
    match *op {
        Op::Clock => Ready::Clock,
        Op::Var(n) => Ready::Var(n),
        Op::Action => Ready::Action,
        Op::Initial => Ready::Initial,
        Op::Location(within) => Ready::Location(limits(within)),
        Op::Effect(a, v, effect) => Ready::Effect(
            Action::numbered(a),
            var(v),
            Expression::from_items(&items(&effect)),
        ),
        Op::Reset(a, c) => Ready::Reset(Action::numbered(a), Clock::numbered(c as u16)),
        Op::Send(x, y) => Ready::Send(vec![
            Expression::from_items(&items(&x)),
            Expression::from_items(&items(&y)),
        ]),
        Op::Receive(v, w) => Ready::Receive(vec![var(v), var(w)]),
        Op::Transition(pre, a, post, guard, within) => Ready::Transition(
            Location::numbered(pre),
            Action::numbered(a),
            Location::numbered(post),
            guard.map(|guard| BooleanExpr::from_items(&items(&guard))),
            limits(within),
        ),
    }
}

fn apply(builder: &mut ProgramGraphBuilder, call: Ready) -> Result<(), PgError> {
    match call {
        Ready::Clock => drop(builder.new_clock()),
        Ready::Var(n) => drop(builder.new_var(Val::Integer(n))),
        Ready::Action => drop(builder.new_action()),
        Ready::Initial => drop(builder.new_initial_location()),
        Ready::Location(limits) => drop(builder.new_timed_location(limits)?),
        Ready::Effect(a, v, effect) => builder.add_effect(a, v, effect)?,
        Ready::Reset(a, c) => builder.add_reset(a, c)?,
        Ready::Send(messages) => drop(builder.open_new_send(messages)?),
        Ready::Receive(vars) => drop(builder.open_new_receive(vars)?),
        Ready::Transition(pre, a, post, guard, limits) => {
            builder.add_timed_transition(pre, a, post, guard, limits)?
        }
    }
    Ok(())
}

#[inline(never)]
fn build(calls: Vec<Ready>) -> Result<ProgramGraph, PgError> {
    let mut builder = ProgramGraphBuilder::new();
    for call in calls {
        apply(&mut builder, call)?;
    }
    Ok(builder.build())
}

#[inline(never)]
#[unsafe(link_section = "driver_calls")]
pub fn graph(ops: &[Op], stretch: &Stretch) -> ProgramGraph {
    let calls: Vec<Ready> = ops.iter().map(ready).collect();
    counted!(stretch, "rust", build(calls)).expect("the Rust builds a graph")
}

/// The builder of systems is not in the text: this is the oracle's, and is not counted.
pub fn system(ops: &[Op], graphs: usize) -> ChannelSystem {
    let mut builder = ChannelSystemBuilder::default();
    for _ in 0..graphs {
        let g = builder.new_program_graph();
        let q = builder.new_channel(
            vec![Type::Integer; 2],
            ChannelCapacity::Queue(Some(CAPACITY as usize)),
        );
        for op in ops {
            let refused = match ready(op) {
                Ready::Action => builder.new_action(g).is_err(),
                Ready::Send(messages) => builder.new_send(g, q, messages).is_err(),
                Ready::Receive(vars) => builder.new_receive(g, q, vars).is_err(),
                other => builder
                    .on_graph(g, |graph| apply(graph, other).is_err())
                    .unwrap_or(true),
            };
            assert!(!refused, "the Rust builds a system");
        }
    }
    builder.build()
}

// ---- answers as numbers

fn word(val: &Val) -> u64 {
    match *val {
        Val::Boolean(b) => b.into(),
        Val::Integer(n) => u64::from(n as u32),
    }
}

fn pg_number(error: PgError) -> u64 {
    match error {
        PgError::MissingAction(_) => 1,
        PgError::MissingClock(_) => 2,
        PgError::MissingLocation(_) => 3,
        PgError::MissingVar(_) => 4,
        PgError::TypeMismatch => 5,
        PgError::Type(_) => 6,
        PgError::MismatchingPostStates => 7,
        PgError::UnsatisfiedGuard => 8,
        PgError::Invariant => 9,
        _ => panic!("{error} is not in the scripts"),
    }
}

fn cs_number(error: CsError) -> u64 {
    match error {
        CsError::ProgramGraph(_, error) => pg_number(error),
        CsError::OutOfCapacity(_) => 20,
        CsError::Empty(_) => 21,
        _ => panic!("{error} is not in the scripts"),
    }
}

fn run_state(run: &ProgramGraphRun) -> Vec<u64> {
    let (places, vars, clocks) = run.parts();
    let mut state: Vec<u64> = places.iter().map(|place| place.number().into()).collect();
    state.extend(vars.iter().map(word));
    state.extend(clocks.iter().map(|&time| u64::from(time)));
    state
}

// ---- one graph

type Entry = (Action, usize, Location);

#[inline(never)]
fn step(
    run: &mut ProgramGraphRun,
    a: Action,
    posts: &[Location],
    rng: &mut SmallRng,
) -> Result<(), PgError> {
    run.transition(a, posts, rng)
}

#[inline(never)]
fn send(
    run: &mut ProgramGraphRun,
    a: Action,
    posts: &[Location],
    rng: &mut SmallRng,
) -> Result<Vec<Val>, PgError> {
    run.open_send(a, posts, rng)
}

#[inline(never)]
fn receive(
    run: &mut ProgramGraphRun,
    a: Action,
    posts: &[Location],
    vals: &[Val],
) -> Result<(), PgError> {
    run.open_receive(a, posts, vals)
}

#[inline(never)]
fn wait(run: &mut ProgramGraphRun, delta: u32) -> Result<(), PgError> {
    run.wait(delta)
}

#[inline(never)]
fn can_wait(run: &ProgramGraphRun, delta: u32) -> bool {
    run.can_wait(delta)
}

#[inline(never)]
fn is_waiting(run: &ProgramGraphRun) -> bool {
    run.is_waiting()
}

#[inline(never)]
fn first(run: &ProgramGraphRun) -> Option<Entry> {
    for (a, processes) in run.possible_transitions() {
        for (p, mut posts) in processes.enumerate() {
            if let Some(post) = posts.next() {
                return Some((a, p, post));
            }
        }
    }
    None
}

#[inline(never)]
fn whole(run: &ProgramGraphRun, entries: &mut [Option<Entry>]) -> usize {
    let mut n = 0;
    for (a, processes) in run.possible_transitions() {
        for (p, posts) in processes.enumerate() {
            for post in posts {
                entries[n] = Some((a, p, post));
                n += 1;
            }
        }
    }
    n
}

pub struct Run<'g> {
    run: ProgramGraphRun<'g>,
    rng: SmallRng,
}

#[inline(never)]
fn new_run(graph: &ProgramGraph) -> ProgramGraphRun<'_> {
    graph.new_instance()
}

impl<'g> Run<'g> {
    #[inline(never)]
    #[unsafe(link_section = "driver_calls")]
    pub fn new(graph: &'g ProgramGraph, stretch: &Stretch) -> Self {
        let run = counted!(stretch, "rust", new_run(graph));
        Run {
            run,
            rng: SmallRng::of_word(0),
        }
    }

    pub fn state(&self) -> Vec<u64> {
        run_state(&self.run)
    }

    #[inline(never)]
    #[unsafe(link_section = "driver_calls")]
    pub fn call(&mut self, call: Call, stretch: &Stretch) -> Vec<u64> {
        let Run { run, rng } = self;
        let number = |done: Result<(), PgError>| done.map_or_else(pg_number, |()| 0);
        match call {
            Call::Step(a, post) => {
                let (a, posts) = (Action::numbered(a), [Location::numbered(post)]);
                vec![number(counted!(stretch, "rust", step(run, a, &posts, rng)))]
            }
            Call::Send(a, post) => {
                let (a, posts) = (Action::numbered(a), [Location::numbered(post)]);
                match counted!(stretch, "rust", send(run, a, &posts, rng)) {
                    Ok(vals) => [0].into_iter().chain(vals.iter().map(word)).collect(),
                    Err(error) => vec![pg_number(error)],
                }
            }
            Call::Receive(a, post, values) => {
                let (a, posts) = (Action::numbered(a), [Location::numbered(post)]);
                let vals = values.map(Val::Integer);
                vec![number(counted!(
                    stretch,
                    "rust",
                    receive(run, a, &posts, &vals)
                ))]
            }
            Call::Wait(delta) => vec![number(counted!(stretch, "rust", wait(run, delta)))],
            Call::CanWait(delta) => vec![counted!(stretch, "rust", can_wait(run, delta)).into()],
            Call::IsWaiting => vec![counted!(stretch, "rust", is_waiting(run)).into()],
            Call::First => {
                let entry = counted!(stretch, "rust", first(run));
                let (a, p, post) = entry.expect("an entry");
                vec![1, a.number().into(), p as u64, post.number().into()]
            }
            Call::Whole(n) => {
                let mut entries = vec![None; n];
                let count = counted!(stretch, "rust", whole(run, &mut entries));
                let mut answer = vec![count as u64];
                for (a, p, post) in entries.into_iter().flatten() {
                    answer.extend([a.number().into(), p as u64, post.number().into()]);
                }
                answer
            }
        }
    }
}

// ---- a system

type CsEntry = (PgId, CsAction, usize, CsLocation);

#[inline(never)]
fn cs_step(
    run: &mut ChannelSystemRun,
    g: PgId,
    a: CsAction,
    posts: &[CsLocation],
) -> Result<Option<Event>, CsError> {
    run.transition(g, a, posts)
}

#[inline(never)]
fn cs_wait(run: &mut ChannelSystemRun, delta: u32) -> Result<(), CsError> {
    run.wait(delta)
}

#[inline(never)]
fn cs_can_wait(run: &ChannelSystemRun, delta: u32) -> bool {
    run.can_wait(delta)
}

#[inline(never)]
fn cs_is_waiting(run: &ChannelSystemRun) -> bool {
    run.is_waiting()
}

#[inline(never)]
fn cs_first(run: &ChannelSystemRun) -> Option<CsEntry> {
    for (g, a, processes) in run.possible_transitions() {
        for (p, mut posts) in processes.enumerate() {
            if let Some(post) = posts.next() {
                return Some((g, a, p, post));
            }
        }
    }
    None
}

#[inline(never)]
fn cs_whole(run: &ChannelSystemRun, entries: &mut [Option<CsEntry>]) -> usize {
    let mut n = 0;
    for (g, a, processes) in run.possible_transitions() {
        for (p, posts) in processes.enumerate() {
            for post in posts {
                entries[n] = Some((g, a, p, post));
                n += 1;
            }
        }
    }
    n
}

#[inline(never)]
fn new_state(system: &ChannelSystem) -> ChannelSystemRun<'_> {
    system.new_instance()
}

pub struct State<'s> {
    run: ChannelSystemRun<'s>,
}

fn cs_words((g, a, p, post): CsEntry) -> [u64; 4] {
    [
        a.in_graph().number().into(),
        p as u64,
        post.in_graph().number().into(),
        g.number().into(),
    ]
}

/// Its kind, its channel and its values.
fn event_words(event: Option<Event>) -> Vec<u64> {
    let Some(Event {
        channel,
        event_type,
        ..
    }) = event
    else {
        return vec![0, 0];
    };
    let (kind, vals) = match event_type {
        EventType::Send(vals) => (1, vals),
        EventType::Receive(vals) => (2, vals),
        EventType::ProbeEmptyQueue => (3, vec![]),
        EventType::ProbeFullQueue => (4, vec![]),
    };
    [kind, u64::from(Channel::number(channel))]
        .into_iter()
        .chain(vals.iter().map(word))
        .collect()
}

impl<'s> State<'s> {
    #[inline(never)]
    #[unsafe(link_section = "driver_calls")]
    pub fn new(system: &'s ChannelSystem, stretch: &Stretch) -> Self {
        State {
            run: counted!(stretch, "rust", new_state(system)),
        }
    }

    pub fn state(&self) -> Vec<u64> {
        let (time, runs, queues) = self.run.parts();
        let mut state = vec![time.into()];
        state.extend(runs.iter().flat_map(run_state));
        for queue in queues {
            state.push(queue.len() as u64);
            state.extend(queue.iter().map(word));
        }
        state
    }

    #[inline(never)]
    #[unsafe(link_section = "driver_calls")]
    pub fn call(&mut self, graph: usize, call: Call, stretch: &Stretch) -> Vec<u64> {
        let run = &mut self.run;
        let g = PgId::numbered(graph as u16);
        match call {
            Call::Step(a, post) => {
                let a = CsAction::of(g, Action::numbered(a));
                let posts = [CsLocation::of(g, Location::numbered(post))];
                match counted!(stretch, "rust", cs_step(run, g, a, &posts)) {
                    Ok(event) => [0].into_iter().chain(event_words(event)).collect(),
                    Err(error) => vec![cs_number(error), 0, 0],
                }
            }
            Call::Wait(delta) => match counted!(stretch, "rust", cs_wait(run, delta)) {
                Ok(()) => vec![0],
                Err(CsError::ProgramGraph(g, PgError::Invariant)) => {
                    vec![9 + 100 * u64::from(g.number())]
                }
                Err(error) => vec![cs_number(error)],
            },
            Call::CanWait(delta) => vec![counted!(stretch, "rust", cs_can_wait(run, delta)).into()],
            Call::IsWaiting => vec![counted!(stretch, "rust", cs_is_waiting(run)).into()],
            Call::First => {
                let entry = counted!(stretch, "rust", cs_first(run)).expect("an entry");
                [1].into_iter().chain(cs_words(entry)).collect()
            }
            Call::Whole(n) => {
                let mut entries = vec![None; n];
                let count = counted!(stretch, "rust", cs_whole(run, &mut entries));
                let mut answer = vec![count as u64];
                answer.extend(entries.into_iter().flatten().flat_map(cs_words));
                answer
            }
            Call::Send(..) | Call::Receive(..) => unreachable!("a system has steps alone"),
        }
    }
}
