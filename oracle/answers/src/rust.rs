//! Calls of the Rust text: numbers go in, answers and plain runs come out.

use crate::answer::Answer;
use crate::call::{Building, Items, Limit, NewTransition, Running};
use crate::expression::{Meaning, meaning};
use crate::running::Run;
use crate::table::{self, Graph};
use rand::rngs::SmallRng;
use scan_core::program_graph::{
    Action, Clock, Location, PgError, ProgramGraph, ProgramGraphBuilder, ProgramGraphRun, Var,
};
use scan_core::{Binary, BooleanExpr, Expression, Item, NoValue, TimeRange, Type, Unary, Val};
use std::{
    cell::Cell,
    fmt,
    ops::{Bound, RangeBounds},
    panic::{self, AssertUnwindSafe},
    sync::Once,
};

/// What the Rust did.
#[derive(Debug, PartialEq, Eq)]
pub enum Outcome {
    /// An answer, and the run after it.
    Answered(Answer, Box<Run>),
    /// An expression had no value: the test code unwound.
    NoValue,
    Panicked(String),
    /// A listing went on past every action that there can be.
    Endless,
}

impl fmt::Display for Outcome {
    fn fmt(&self, f: &mut fmt::Formatter<'_>) -> fmt::Result {
        match self {
            Outcome::Answered(answer, _) => write!(f, "{answer}"),
            Outcome::NoValue => f.write_str("no value"),
            Outcome::Panicked(message) => write!(f, "panics: {message}"),
            Outcome::Endless => f.write_str("does not end"),
        }
    }
}

/// More actions than a graph can have with its reserved one.
const ENDLESS: usize = 100;

/// A graph in the Rust: its builder goes on after a build, so a copy of it is built.
pub struct Rust {
    builder: ProgramGraphBuilder,
    built: Option<ProgramGraph>,
}

impl Rust {
    pub fn new() -> Self {
        Rust {
            builder: ProgramGraphBuilder::new(),
            built: None,
        }
    }

    /// The same graph, its parts added in stored order. An error is a call that the Rust refuses or that has another answer.
    pub fn of_graph(graph: &Graph) -> Result<Self, String> {
        let mut rust = Rust::new();
        let mut added = Graph::default();
        for building in parts(graph) {
            let outcome = rust.add(&building, &added.vars);
            if !matches!(&outcome, Ok(answer) if answer.accepted()) {
                return Err(format!("{building:?} of a well-formed table: {outcome:?}"));
            }
            if let Building::Var(val) = building {
                added.vars.push(val);
            }
        }
        Ok(rust)
    }

    /// Adds to the builder. `vars` are the variables that there are, for their types.
    pub fn add(&mut self, building: &Building, vars: &[Val]) -> Result<Answer, String> {
        self.built = None;
        guarded(|| added(&mut self.builder, building, vars)).map_err(|outcome| outcome.to_string())
    }

    /// What adding would answer; and whether a refused call would leave something behind.
    pub fn try_add(&self, building: &Building, vars: &[Val]) -> (Result<Answer, String>, bool) {
        let mut copy = Rust {
            builder: self.builder.clone(),
            built: None,
        };
        let answer = copy.add(building, vars);
        let next = |rust: &Rust| rust.builder.clone().new_location();
        let kept = matches!(answer, Ok(Answer::Refused(_))) && next(self) != next(&copy);
        (answer, kept)
    }

    pub fn kind(&self, var: u32) -> Answer {
        kind_in(&self.builder, var)
    }

    pub fn build(&mut self) -> Result<&ProgramGraph, String> {
        if self.built.is_none() {
            let builder = self.builder.clone();
            let built = guarded(|| builder.build()).map_err(|outcome| outcome.to_string())?;
            self.built = Some(built);
        }
        Ok(self.built.as_ref().expect("just built"))
    }

    pub fn new_run(&mut self) -> Result<Run, String> {
        let graph = self.build()?;
        guarded(|| plain(&graph.new_instance(), &Run::zeros()))
            .map_err(|outcome| outcome.to_string())
    }

    /// Makes the call on a copy of the run.
    pub fn call(&mut self, run: &Run, running: &Running) -> Result<Outcome, String> {
        let graph = self.build()?;
        Ok(guarded(|| called(graph, run, running)).unwrap_or_else(|outcome| outcome))
    }
}

impl Default for Rust {
    fn default() -> Self {
        Rust::new()
    }
}

pub fn has(lower: Bound<u32>, upper: Bound<u32>, time: u32) -> Answer {
    Answer::yes_or_no(TimeRange::new((lower, upper)).contains(&time))
}

pub fn shift(lower: Bound<u32>, upper: Bound<u32>, delta: u32) -> Answer {
    let shifted = TimeRange::new((lower, upper)).shift(delta);
    Answer::Range(shifted.start_bound().cloned(), shifted.end_bound().cloned())
}

/// What the builder says of an expression over variables of these kinds, and the test code of its kind.
pub fn typed(items: &Items, vars: &[Val]) -> Result<Answer, String> {
    guarded(|| {
        let mut builder = ProgramGraphBuilder::new();
        for val in vars {
            builder.new_var(*val);
        }
        let expression = effect(items, vars);
        match builder.open_new_send(vec![expression.clone()]) {
            Ok(_) => Answer::Kind(expression.r#type()),
            Err(error) => Answer::Refused(number_of(error)),
        }
    })
    .map_err(|outcome| outcome.to_string())
}

/// The test code's value of a well-typed expression, if it has one.
pub fn evaluated(items: &Items, vars: &[Val], word: u64) -> Result<Option<Val>, String> {
    let expression = effect(items, vars);
    let mut rng = SmallRng::of_word(word);
    let value = |var: Var| vars[usize::from(var.number())];
    match guarded(|| expression.eval(&value, Some(&mut rng))) {
        Ok(val) => Ok(Some(val)),
        Err(Outcome::NoValue) => Ok(None),
        Err(outcome) => Err(outcome.to_string()),
    }
}

thread_local! {
    static INSIDE: Cell<bool> = const { Cell::new(false) };
}

/// Catches what unwinds out of the Rust, without a message on standard error.
pub(crate) fn guarded<T>(call: impl FnOnce() -> T) -> Result<T, Outcome> {
    static HOOK: Once = Once::new();
    HOOK.call_once(|| {
        let usual = panic::take_hook();
        panic::set_hook(Box::new(move |info| {
            if !INSIDE.get() {
                usual(info);
            }
        }));
    });
    INSIDE.set(true);
    let result = panic::catch_unwind(AssertUnwindSafe(call));
    INSIDE.set(false);
    result.map_err(|payload| {
        if payload.is::<NoValue>() {
            return Outcome::NoValue;
        }
        let message = payload.downcast_ref::<&str>().map(ToString::to_string);
        let message = message.or_else(|| payload.downcast_ref::<String>().cloned());
        Outcome::Panicked(message.unwrap_or_default())
    })
}

/// The calls that build a graph, in stored order.
pub(crate) fn parts(graph: &Graph) -> Vec<Building> {
    let mut parts: Vec<Building> = graph.vars.iter().copied().map(Building::Var).collect();
    parts.extend((0..graph.clocks).map(|_| Building::Clock));
    parts.extend(
        graph
            .locations
            .iter()
            .cloned()
            .map(|limits| Building::Location(Some(limits))),
    );
    parts.extend(graph.processes.iter().copied().map(Building::Process));
    for (action, row) in (0..).zip(&graph.actions) {
        match row {
            table::Action::Plain { effects, resets } => {
                parts.push(Building::Action);
                for (var, items) in effects {
                    parts.push(Building::Effect(action, *var, items.clone()));
                }
                parts.extend(resets.iter().map(|&clock| Building::Reset(action, clock)));
            }
            table::Action::Send(messages) => parts.push(Building::Send(messages.clone())),
            table::Action::Receive(vars) => parts.push(Building::Receive(vars.clone())),
        }
    }
    parts.extend(graph.transitions.iter().cloned().map(|transition| {
        Building::Transition(NewTransition {
            pre: transition.pre,
            action: transition.action,
            post: transition.post,
            guard: transition.guard,
            limits: Some(transition.limits),
            autonomous: false,
        })
    }));
    parts
}

/// The kind of a variable, by the builder of its graph.
pub(crate) fn kind_in(graph: &ProgramGraphBuilder, var: u32) -> Answer {
    match graph.open_var_type(var_of(var)) {
        Ok(kind) => Answer::Kind(kind),
        Err(error) => Answer::Refused(number_of(error)),
    }
}

pub(crate) fn added(
    builder: &mut ProgramGraphBuilder,
    building: &Building,
    vars: &[Val],
) -> Answer {
    match building {
        Building::Var(val) => Answer::Number(builder.new_var(*val).number().into()),
        Building::Clock => Answer::Number(builder.new_clock().number().into()),
        Building::Action => Answer::Number(builder.new_action().number()),
        Building::Send(messages) => {
            let messages = messages.iter().map(|items| effect(items, vars)).collect();
            numbered(builder.open_new_send(messages).map(Action::number))
        }
        Building::Receive(vars) => {
            let vars = vars.iter().map(|&var| var_of(var)).collect();
            numbered(builder.open_new_receive(vars).map(Action::number))
        }
        Building::Reset(action, clock) => {
            done(builder.add_reset(Action::numbered(*action), clock_of(*clock)))
        }
        Building::Effect(action, var, items) => {
            let effect = effect(items, vars);
            done(builder.add_effect(Action::numbered(*action), var_of(*var), effect))
        }
        Building::Location(None) => Answer::Number(builder.new_location().number()),
        Building::Location(Some(limits)) => numbered(
            builder
                .new_timed_location(limits_of(limits))
                .map(Location::number),
        ),
        Building::Process(location) => done(builder.new_process(Location::numbered(*location))),
        Building::Initial(None) => Answer::Number(builder.new_initial_location().number()),
        Building::Initial(Some(limits)) => {
            let location = builder.new_initial_timed_location(limits_of(limits));
            numbered(location.map(Location::number))
        }
        Building::Transition(new) => done(added_transition(builder, new, vars)),
    }
}

fn added_transition(
    builder: &mut ProgramGraphBuilder,
    new: &NewTransition,
    vars: &[Val],
) -> Result<(), PgError> {
    let (pre, post) = (Location::numbered(new.pre), Location::numbered(new.post));
    let action = Action::numbered(new.action);
    let guard = new.guard.as_ref();
    let guard = guard.map(|items| BooleanExpr::from_items(&items_of(items, vars)));
    match (&new.limits, new.autonomous) {
        (None, true) => builder.add_autonomous_transition(pre, post, guard),
        (None, false) => builder.add_transition(pre, action, post, guard),
        (Some(limits), true) => {
            builder.add_autonomous_timed_transition(pre, post, guard, limits_of(limits))
        }
        (Some(limits), false) => {
            builder.add_timed_transition(pre, action, post, guard, limits_of(limits))
        }
    }
}

fn called(graph: &ProgramGraph, run: &Run, running: &Running) -> Outcome {
    let mut instance = ProgramGraphRun::from_parts(
        graph,
        locations_of(run.used_places()),
        run.used_vars().to_vec(),
        run.used_clocks().to_vec(),
    );
    let answer = match running {
        Running::Step(action, posts, word) => {
            let mut rng = SmallRng::of_word(*word);
            done(instance.transition(Action::numbered(*action), &locations_of(posts), &mut rng))
        }
        Running::Send(action, posts, word) => {
            let mut rng = SmallRng::of_word(*word);
            match instance.open_send(Action::numbered(*action), &locations_of(posts), &mut rng) {
                Ok(vals) => Answer::Values(vals),
                Err(error) => Answer::Refused(number_of(error)),
            }
        }
        Running::Receive(action, posts, vals) => {
            done(instance.open_receive(Action::numbered(*action), &locations_of(posts), vals))
        }
        Running::Wait(delta) => done(instance.wait(*delta)),
        Running::Can(delta) => Answer::yes_or_no(instance.can_wait(*delta)),
        Running::Waiting => Answer::yes_or_no(instance.is_waiting()),
        Running::List(k) => match entry(&instance, *k) {
            Some(answer) => answer,
            None => return Outcome::Endless,
        },
        Running::Solo(k) => solo_entry(&instance, *k),
        // The Rust has no call for these two: what its run holds is read.
        Running::Value(var) => match instance.parts().1.get(*var as usize) {
            Some(val) => Answer::Values(vec![*val]),
            None => Answer::Refused(4),
        },
        Running::Clock(clock) => match instance.parts().2.get(*clock as usize) {
            Some(time) => Answer::Number(*time),
            None => Answer::Refused(2),
        },
        Running::Places => {
            let places = instance.current_states().iter();
            Answer::Places(places.map(|place| place.number()).collect())
        }
    };
    Outcome::Answered(answer, Box::new(plain(&instance, run)))
}

/// Entry k of the listing, laid flat; none where it does not end.
fn entry(instance: &ProgramGraphRun, k: u32) -> Option<Answer> {
    let mut left = k;
    for (seen, (action, processes)) in instance.possible_transitions().enumerate() {
        if seen == ENDLESS {
            return None;
        }
        for (process, posts) in (0..).zip(processes) {
            for post in posts {
                if left == 0 {
                    return Some(Answer::Entry(action.number(), process, post.number()));
                }
                left -= 1;
            }
        }
    }
    Some(Answer::End)
}

fn solo_entry(instance: &ProgramGraphRun, k: u32) -> Answer {
    match instance.nosync_possible_transitions() {
        Err(error) => Answer::Refused(number_of(error)),
        Ok(actions) => actions
            .flat_map(|(action, posts)| {
                posts.map(move |post| Answer::Entry(action.number(), 0, post.number()))
            })
            .nth(k as usize)
            .unwrap_or(Answer::End),
    }
}

/// A run as plain data. What stands unused is as it was before.
pub(crate) fn plain(instance: &ProgramGraphRun, before: &Run) -> Run {
    let (places, vars, clocks) = instance.parts();
    let mut run = before.clone();
    (run.processes, run.variables, run.timers) = (places.len(), vars.len(), clocks.len());
    for (place, location) in run.places.iter_mut().zip(places) {
        *place = location.number();
    }
    run.vars[..vars.len()].copy_from_slice(vars);
    run.clocks[..clocks.len()].copy_from_slice(clocks);
    run
}

fn done(result: Result<(), PgError>) -> Answer {
    match result {
        Ok(()) => Answer::Ok,
        Err(error) => Answer::Refused(number_of(error)),
    }
}

fn numbered(result: Result<u32, PgError>) -> Answer {
    match result {
        Ok(number) => Answer::Number(number),
        Err(error) => Answer::Refused(number_of(error)),
    }
}

pub(crate) fn number_of(error: PgError) -> u32 {
    match error {
        PgError::MissingAction(_) => 1,
        PgError::MissingClock(_) => 2,
        PgError::MissingLocation(_) => 3,
        PgError::MissingVar(_) => 4,
        PgError::TypeMismatch => 5,
        PgError::Type(_) => 6,
        PgError::MismatchingPostStates => 7,
        PgError::UnsatisfiedGuard => 8,
        PgError::Invariant => 9,
        PgError::NoEffects => 10,
        PgError::EffectOnSend => 11,
        PgError::EffectOnReceive => 12,
        PgError::Communication(_) => 13,
        PgError::NotSend(_) => 14,
        PgError::NotReceive(_) => 15,
        PgError::Sync => 16,
        PgError::MissingTransition | PgError::MissingComponent(_) => {
            panic!("an error that the text never makes")
        }
    }
}

pub(crate) fn locations_of(numbers: &[u32]) -> Vec<Location> {
    numbers
        .iter()
        .map(|&number| Location::numbered(number))
        .collect()
}

/// The Rust has 16 bits for variables and clocks. A larger number names nothing, and the largest of 16 bits names nothing too.
pub(crate) fn cut(number: u32) -> u16 {
    u16::try_from(number).unwrap_or(u16::MAX)
}

pub(crate) fn var_of(number: u32) -> Var {
    Var::numbered(cut(number))
}

fn clock_of(number: u32) -> Clock {
    Clock::numbered(cut(number))
}

fn limits_of(limits: &[Limit]) -> Vec<(Clock, TimeRange)> {
    limits
        .iter()
        .map(|limit| {
            (
                clock_of(limit.clock),
                TimeRange::new((limit.lower, limit.upper)),
            )
        })
        .collect()
}

pub(crate) fn effect(items: &Items, vars: &[Val]) -> Expression<Var> {
    Expression::from_items(&items_of(items, vars))
}

fn items_of(items: &Items, vars: &[Val]) -> Vec<Item<Var>> {
    items.iter().map(|&word| item_of(word, vars)).collect()
}

fn item_of(word: u64, vars: &[Val]) -> Item<Var> {
    match meaning(word) {
        None => Item::Unknown,
        Some(Meaning::Const(val)) => Item::Const(val),
        Some(Meaning::Draw) => Item::Draw,
        Some(Meaning::Var(number)) => {
            let number = u32::try_from(number).unwrap_or(u32::MAX);
            let kind = vars
                .get(number as usize)
                .map_or(Type::Boolean, |val| val.r#type());
            Item::Var(var_of(number), kind)
        }
        Some(Meaning::Operation(operation)) => match operation {
            1 => Item::Unary(Unary::Not),
            2 => Item::Binary(Binary::And),
            3 => Item::Binary(Binary::Or),
            4 => Item::Unary(Unary::Negate),
            5 => Item::Binary(Binary::Add),
            6 => Item::Binary(Binary::Sub),
            7 => Item::Binary(Binary::Mul),
            8 => Item::Binary(Binary::Div),
            9 => Item::Binary(Binary::Rem),
            10 => Item::Binary(Binary::Equal),
            11 => Item::Binary(Binary::Less),
            12 => Item::Binary(Binary::LessEq),
            _ => unreachable!("operations are 1 to 12"),
        },
    }
}
