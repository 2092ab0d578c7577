//! Holds one system with one state of it, and answers each line twice: by the rules, and by the Rust where it has an answer.

use crate::answer::{Answer, EPSILON};
use crate::building::Objection;
use crate::expression;
use crate::oracle::{
    Disagreement, Mark, Replied, Reply, both, by_both, by_rules, departing, differs,
};
use crate::recording;
use crate::rust::Outcome;
use crate::system_answer::SystemAnswer;
use crate::system_building as building;
use crate::system_call::{Lent, Step, SystemBuilding, SystemCall, SystemRunning};
use crate::system_running as running;
use crate::system_rust::{self, Left, RustSystem, SystemOutcome};
use crate::system_table::{Capacity, Channel, Kind, ROOM, State, StateWords, System, SystemTable};
use crate::table::Action;
use crate::why::{self, Tables};

pub struct Systems {
    table: SystemTable,
    /// What the table says; none where it is badly formed.
    system: Option<System>,
    /// The same system in the Rust; none where it has yet to be built again from the table.
    rust: Option<RustSystem>,
    state: StateWords,
    /// The state came from the Rust, without a draw.
    compared: bool,
    /// What the explainer is lent, copied with each new state.
    tables: Tables,
}

impl Systems {
    pub fn new() -> Self {
        Systems {
            table: SystemTable::default(),
            system: Some(System::default()),
            rust: Some(RustSystem::default()),
            state: StateWords::default(),
            compared: false,
            tables: Tables::default(),
        }
    }

    pub fn answer(&mut self, call: &SystemCall) -> Replied {
        match call {
            SystemCall::New => self.new_system(),
            SystemCall::Poke(Lent::Table, place, word) => self.poke_table(*place, *word),
            SystemCall::Poke(Lent::State, place, word) => self.poke_state(*place, *word),
            SystemCall::Poke(Lent::Guards, place, word) => {
                self.tables.guards[*place] = *word;
                by_rules(Answer::Ok)
            }
            SystemCall::Poke(Lent::Limits, place, word) => {
                self.tables.limits[*place] = *word;
                by_rules(Answer::Ok)
            }
            SystemCall::Sum(Lent::Guards | Lent::Limits) => by_rules(Answer::BadLine),
            SystemCall::Why(step) => self.why(step),
            SystemCall::Sum(Lent::Table) => by_rules(Answer::Sum(self.table.sum())),
            SystemCall::Sum(Lent::State) => by_rules(Answer::Sum(self.state.sum())),
            SystemCall::Graph
            | SystemCall::Channel(..)
            | SystemCall::Building(..)
            | SystemCall::Kind(..)
            | SystemCall::Build => self.on_table(call),
            SystemCall::NewState => {
                self.tables.copy(&self.table);
                self.on_built(call)
            }
            SystemCall::Capacity(_) => self.on_built(call),
            SystemCall::Running(running) => self.running(running),
            SystemCall::Replay(bytes) => self.replay(bytes),
            SystemCall::Show => self.show(),
        }
    }

    fn new_system(&mut self) -> Replied {
        self.table.clear();
        self.system = Some(System::default());
        self.rust = Some(RustSystem::default());
        self.state = StateWords::default();
        self.compared = false;
        by_rules(Answer::Ok)
    }

    fn poke_table(&mut self, place: usize, word: u64) -> Replied {
        self.table.poke(place, word);
        self.read_again();
        by_rules(Answer::Ok)
    }

    fn poke_state(&mut self, place: usize, word: u64) -> Replied {
        self.state.poke(place, word);
        self.compared = false;
        by_rules(Answer::Ok)
    }

    fn read_again(&mut self) {
        let system = self.table.system();
        if system != self.system {
            self.system = system;
            self.rust = None;
        }
    }

    /// The system and the same in the Rust, out of their places; the caller puts them back.
    fn take(&mut self) -> Result<Option<(System, RustSystem)>, Disagreement> {
        let Some(system) = self.system.take() else {
            return Ok(None);
        };
        let rust = match self.rust.take() {
            Some(rust) => rust,
            None => RustSystem::of_system(&system).map_err(Disagreement)?,
        };
        Ok(Some((system, rust)))
    }

    fn put(&mut self, system: System, rust: RustSystem) {
        self.system = Some(system);
        self.rust = Some(rust);
    }

    /// A call that adds, `kind`, or `build`.
    fn on_table(&mut self, call: &SystemCall) -> Replied {
        let Some((system, mut rust)) = self.take()? else {
            return by_rules(Answer::Refused(32));
        };
        let (reply, changed) = match call {
            SystemCall::Graph => self.graph(&system, &mut rust),
            SystemCall::Channel(kinds, capacity) => {
                let channel = Channel {
                    kinds: kinds.clone(),
                    capacity: *capacity,
                };
                self.channel(&system, &mut rust, &channel)
            }
            SystemCall::Building(graph, building) => {
                self.building(&system, &mut rust, *graph, building)
            }
            SystemCall::Kind(graph, var) => (kind(&system, &mut rust, *graph, *var), false),
            _ => (build(&system, &mut rust), false),
        };
        if changed {
            self.system = self.table.system();
            self.rust = Some(rust);
            if self.system.is_none() {
                return differs(call, &reply, "a badly formed table");
            }
        } else {
            self.put(system, rust);
        }
        reply
    }

    fn graph(&mut self, system: &System, rust: &mut RustSystem) -> (Replied, bool) {
        if building::check_graph(system).is_err() {
            return (departing(Answer::Refused(28), rust.try_add_graph()), false);
        }
        let ours = Answer::Number(self.table.add_graph());
        (by_test_code(ours, rust.add_graph()), true)
    }

    /// The Rust has no largest channel. Its queues show where a send is refused, though: that is the ceiling.
    fn channel(
        &mut self,
        system: &System,
        rust: &mut RustSystem,
        channel: &Channel,
    ) -> (Replied, bool) {
        if let Err(disagreement) = ceiling_agrees(channel) {
            return (Err(disagreement), false);
        }
        match building::check_channel(system, channel) {
            Ok(()) => {
                let ours = Answer::Number(self.table.add_channel(channel));
                (by_test_code(ours, rust.add_channel(channel)), true)
            }
            Err(objection) => {
                let ours = Answer::Refused(objection.number());
                (departing(ours, rust.try_add_channel(channel)), false)
            }
        }
    }

    fn building(
        &mut self,
        system: &System,
        rust: &mut RustSystem,
        graph: u32,
        building: &SystemBuilding,
    ) -> (Replied, bool) {
        let member = system.members.get(graph as usize);
        let vars = member.map_or([].as_slice(), |member| &member.graph.vars);
        match building::check(system, graph, building) {
            Ok(()) => {
                let number = self.table.add(graph as usize, building);
                let ours = building::accepted(building, number);
                let reply = match rust.add(graph, building, vars) {
                    Ok(theirs) => by_builder(building, ours, theirs),
                    Err(theirs) => differs(building, &ours, theirs),
                };
                (reply, true)
            }
            Err(objection) => {
                let ours = Answer::Refused(objection.number());
                let reply = match (rust.try_add(graph, building, vars), objection) {
                    (Err(theirs), _) => differs(building, &ours, theirs),
                    (Ok(theirs), Objection::Refused(_)) => by_builder(building, ours, theirs),
                    (Ok(theirs), Objection::ListTooLong) => departing(ours, theirs),
                    (Ok(theirs), Objection::TableFull) if theirs.accepted() => {
                        departing(ours, theirs)
                    }
                    (Ok(theirs), Objection::TableFull) => differs(building, &ours, theirs),
                };
                (reply, false)
            }
        }
    }

    /// A call that reads a table outside building, without a state.
    fn on_built(&mut self, call: &SystemCall) -> Replied {
        if !self.system.as_ref().is_some_and(System::runs) {
            return by_rules(Answer::Refused(32));
        }
        let Some((system, mut rust)) = self.take()? else {
            return by_rules(Answer::Refused(32));
        };
        let reply = match call {
            SystemCall::Capacity(q) => capacity(&system, &mut rust, *q),
            _ => self.new_state(&system, &mut rust),
        };
        self.put(system, rust);
        reply
    }

    fn new_state(&mut self, system: &System, rust: &mut RustSystem) -> Replied {
        let fresh = State::fresh(system);
        let ours = fresh.parts();
        let theirs = rust.new_state(&ours);
        if theirs.as_ref() != Ok(&ours) {
            return differs("new_instance", &ours, theirs);
        }
        self.state.store(&fresh);
        self.compared = true;
        by_both(Answer::Ok)
    }

    fn running(&mut self, running: &SystemRunning) -> Replied {
        let Some(state) = self.good_state() else {
            return by_rules(Answer::Refused(32));
        };
        let Some((system, mut rust)) = self.take()? else {
            return by_rules(Answer::Refused(32));
        };
        let theirs = rust.call(&state, running).map_err(Disagreement);
        let (answer, next) = running::call(&system, &state, running);
        let reply = theirs.and_then(|theirs| {
            let mark = judged(&system, &state, running, &answer, &next, &theirs)?;
            let departs = (!same(&theirs, &answer, &next)).then(|| theirs.to_string());
            Ok(Reply {
                mark,
                answer: answer.clone(),
                // What the Rust has no call for it does not do otherwise.
                departs: departs.filter(|_| !matches!(running, SystemRunning::Queue(..))),
            })
        });
        if let Ok(reply) = &reply
            && moves(running)
            && answer.accepted()
        {
            self.compared &= reply.mark == Mark::Rust;
            self.state.store(&next);
            if self.state.state(&system).as_ref() != Some(&next) {
                return differs(running, &next, "words that say something else");
            }
        }
        self.put(system, rust);
        reply
    }

    /// The calls of the records one by one. A finding undoes all.
    fn replay(&mut self, bytes: &[u8]) -> Replied {
        if self.good_state().is_none() {
            return by_rules(Answer::Refused(32));
        }
        let kept = (self.state.clone(), self.compared);
        let reply = self.replayed(bytes);
        if !matches!(&reply, Ok(reply) if reply.answer.accepted()) {
            (self.state, self.compared) = kept;
        }
        reply
    }

    /// It is the Rust's where every call that was made is.
    fn replayed(&mut self, bytes: &[u8]) -> Replied {
        let (mut mark, mut made) = (Mark::Rust, 0);
        let reply = |mark, answer| {
            Ok(Reply {
                mark,
                answer,
                departs: None,
            })
        };
        for (b, block) in bytes.chunks(recording::BLOCK).enumerate() {
            let last = bytes.len() <= (b + 1) * recording::BLOCK;
            let Some(records) = recording::block(block, b, last) else {
                return reply(Mark::Rules, Answer::System(SystemAnswer::Block(b)));
            };
            for (i, record) in records.iter().enumerate() {
                let made_call = self.running(&record.call)?;
                let (given, recorded) = (number_of(&made_call.answer), u32::from(record.recorded));
                if made_call.mark == Mark::Rules {
                    mark = Mark::Rules;
                }
                if given != recorded {
                    let differs = SystemAnswer::Record(b, i, recorded, given);
                    return reply(mark, Answer::System(differs));
                }
                made += 1;
            }
        }
        reply(mark, Answer::Number(made))
    }

    /// None where the table or the state answers 32.
    fn good_state(&self) -> Option<State> {
        let system = self.system.as_ref().filter(|system| system.runs())?;
        self.state.state(system)
    }

    /// The Rust has no such call.
    fn why(&self, step: &Step) -> Replied {
        match (self.good_state(), &self.system) {
            (Some(state), Some(system)) => {
                by_rules(why::why(&self.tables, &self.table, system, &state, step))
            }
            _ => by_rules(Answer::Refused(32)),
        }
    }

    fn show(&self) -> Replied {
        let Some(state) = self.good_state() else {
            return by_rules(Answer::Refused(32));
        };
        let answer = Answer::System(SystemAnswer::State(Box::new(state.parts())));
        if self.compared {
            by_both(answer)
        } else {
            by_rules(answer)
        }
    }
}

impl Default for Systems {
    fn default() -> Self {
        Systems::new()
    }
}

/// The paper's number of an answer, 0 for ok.
fn number_of(answer: &Answer) -> u32 {
    match answer {
        Answer::Refused(number) => *number,
        Answer::System(SystemAnswer::Objects(_)) => 9,
        _ => 0,
    }
}

fn moves(running: &SystemRunning) -> bool {
    matches!(running, SystemRunning::Step(_) | SystemRunning::Wait(_))
}

/// The graph's own call is the Rust's; 17 is the test code's.
fn kind(system: &System, rust: &mut RustSystem, graph: u32, var: u32) -> Replied {
    let theirs = rust.kind(graph, var);
    let Some(member) = system.members.get(graph as usize) else {
        return by_test_code(Answer::Refused(17), theirs);
    };
    let val = member.graph.vars.get(var as usize);
    let ours = val.map_or(Answer::Refused(4), |val| Answer::Kind(val.r#type()));
    both(ours, &theirs)
}

fn build(system: &System, rust: &mut RustSystem) -> Replied {
    if let Err(theirs) = rust.build() {
        return differs("build", &Answer::Ok, theirs);
    }
    if !system.runs() {
        return departing(Answer::Refused(29), "ok");
    }
    by_both(Answer::Ok)
}

fn capacity(system: &System, rust: &mut RustSystem, q: u32) -> Replied {
    let ours = match system.channels.get(q as usize) {
        Some(channel) => Answer::System(SystemAnswer::Channel(
            channel.kinds.clone(),
            channel.capacity,
        )),
        None => Answer::Refused(30),
    };
    match rust.channel(q) {
        Ok(theirs) => both(ours, &theirs),
        Err(theirs) => differs("channel", &ours, theirs),
    }
}

fn ceiling_agrees(channel: &Channel) -> Result<(), Disagreement> {
    let Capacity::Bounded(capacity) = channel.capacity else {
        return Ok(());
    };
    let ours = channel.ceiling();
    let theirs = system_rust::filled(channel.width(), capacity, ROOM);
    let ceiling = usize::try_from(ours).ok().filter(|&most| most <= ROOM);
    if theirs == ceiling && theirs.is_none() == channel.too_large() {
        return Ok(());
    }
    Err(Disagreement(format!(
        "{channel:?}: by the rules its ceiling is {ours}, the Rust takes {theirs:?}; 31: {}",
        channel.too_large()
    )))
}

/// The test code that stands for the builder of systems follows P: what it answers is compared, and stays the rules'.
fn by_test_code(ours: Answer, theirs: Answer) -> Replied {
    both(ours, &theirs).map(|reply| Reply {
        mark: Mark::Rules,
        ..reply
    })
}

/// A graph's own call is the Rust's own; 17 and the communications are the test code's.
fn by_builder(building: &SystemBuilding, ours: Answer, theirs: Answer) -> Replied {
    if matches!(building, SystemBuilding::Own(_)) && ours != Answer::Refused(17) {
        both(ours, &theirs)
    } else {
        by_test_code(ours, theirs)
    }
}

fn same(theirs: &SystemOutcome, answer: &Answer, next: &State) -> bool {
    matches!(theirs, SystemOutcome::Answered(a, parts) if a == answer && **parts == next.parts())
}

/// Where the answer comes from; a disagreement where the Rust does otherwise and no departure says so.
fn judged(
    system: &System,
    state: &State,
    running: &SystemRunning,
    answer: &Answer,
    next: &State,
    theirs: &SystemOutcome,
) -> Result<Mark, Disagreement> {
    let agreed = match departure(system, state, running, answer) {
        Some(departure) => departure.allows(theirs).then_some(Mark::Rules),
        None if !same(theirs, answer, next) => None,
        None if drawn(system, running, answer) => Some(Mark::Rules),
        None => Some(Mark::Rust),
    };
    agreed.ok_or_else(|| {
        Disagreement(format!(
            "{running:?}: by the rules {answer} and {:?}, by the Rust {theirs} ({theirs:?})",
            next.parts()
        ))
    })
}

/// Why the Rust may do otherwise (docs/DIFFERENCES.md, The channel layer).
#[derive(Debug, Clone, Copy, PartialEq, Eq)]
enum Departure {
    /// The Rust has no such call.
    NoReader,
    /// The time or a clock passes 32 bits.
    PastTheEnd,
    /// An expression has no value: the test code unwinds.
    NoValue,
    /// The wrong number of posts in a communication: 7.
    Posts,
    /// A receive that is not ready: the Rust has taken the message, and panics.
    LostMessage,
    /// 27: the Rust's queue grows.
    NoRoom,
    /// An unknown action: the Rust reads an entry of a later graph, or past the last.
    OtherEntry,
}

fn departure(
    system: &System,
    state: &State,
    running: &SystemRunning,
    answer: &Answer,
) -> Option<Departure> {
    match running {
        SystemRunning::Queue(..) => Some(Departure::NoReader),
        SystemRunning::Wait(delta) | SystemRunning::Can(delta) => {
            running::overflows(state, *delta).then_some(Departure::PastTheEnd)
        }
        SystemRunning::Waiting => running::overflows(state, 1).then_some(Departure::PastTheEnd),
        SystemRunning::Step(step) => departure_of_step(system, step, answer),
        _ => None,
    }
}

fn departure_of_step(system: &System, step: &Step, answer: &Answer) -> Option<Departure> {
    let Answer::Refused(number) = *answer else {
        return None;
    };
    if matches!(number, 17..=19) {
        return None;
    }
    if reads_another(system, step) {
        return Some(Departure::OtherEntry);
    }
    let entry = running::communication(system, step.graph, step.action.1);
    match (number, entry.map(|entry| entry.kind)) {
        (26, _) => Some(Departure::NoValue),
        (27, Some(Kind::Send)) => Some(Departure::NoRoom),
        (7, Some(_)) => Some(Departure::Posts),
        (8, Some(Kind::Receive)) => Some(Departure::LostMessage),
        _ => None,
    }
}

/// Whether the Rust, asked for the entry of an unknown action, finds a communication of a later graph or nothing at all.
fn reads_another(system: &System, step: &Step) -> bool {
    let entries: Vec<_> = system
        .members
        .iter()
        .map(|member| member.communications.as_slice())
        .collect();
    let (graph, action) = (step.graph as usize, step.action.1);
    if action == EPSILON || (action as usize) < entries[graph].len() {
        return false;
    }
    let later = entries[graph..].concat();
    later.get(action as usize).is_none_or(Option::is_some)
}

impl Departure {
    /// What the Rust can do there and nothing else, so that a slip in the rules shows.
    fn allows(self, theirs: &SystemOutcome) -> bool {
        let panics = matches!(theirs, SystemOutcome::Failed(Outcome::Panicked(_), _));
        let no_value = matches!(theirs, SystemOutcome::Failed(Outcome::NoValue, _));
        let refused = |number| matches!(theirs, SystemOutcome::Answered(Answer::Refused(n), _) if *n == number);
        match self {
            Departure::NoReader | Departure::OtherEntry => true,
            Departure::PastTheEnd => {
                panics
                    || matches!(
                        theirs,
                        SystemOutcome::Answered(
                            Answer::Yes | Answer::No | Answer::System(SystemAnswer::Objects(_)),
                            _
                        )
                    )
            }
            Departure::NoValue => no_value,
            Departure::Posts => panics || no_value || refused(8),
            Departure::LostMessage => {
                matches!(
                    theirs,
                    SystemOutcome::Failed(Outcome::Panicked(_), Left::MessageGone)
                )
            }
            Departure::NoRoom => overfull(theirs) || panics || no_value || refused(8),
        }
    }
}

/// Whether the Rust has sent, and a queue now holds more than there is room for here.
fn overfull(theirs: &SystemOutcome) -> bool {
    let SystemOutcome::Answered(Answer::System(SystemAnswer::Event(_, _, Kind::Send, _)), parts) =
        theirs
    else {
        return false;
    };
    parts.queues.iter().any(|queue| queue.len() > ROOM)
}

/// Whether an accepted step draws.
fn drawn(system: &System, running: &SystemRunning, answer: &Answer) -> bool {
    let SystemRunning::Step(step) = running else {
        return false;
    };
    if !answer.accepted() {
        return false;
    }
    let graph = &system.members[step.graph as usize].graph;
    let drawn = |items: &Vec<u64>| expression::draws(items) > 0;
    match graph.actions.get(step.action.1 as usize) {
        Some(Action::Plain { effects, .. }) => effects.iter().any(|(_, items)| drawn(items)),
        Some(Action::Send(messages)) => messages.iter().any(drawn),
        _ => false,
    }
}
