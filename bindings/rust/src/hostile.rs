//! Numbers that name nothing, lists of any length, trees of any size, and spoilt words: every call ends with an answer, a refusal has a
//! name and leaves every word, and what the crate wrote itself is never refused with 32.

use crate::archive::{self, GraphTable, Place, RunWords, StateWords, SystemTable};
use crate::channel_system::{self as cs, Channel, ChannelCapacity, ChannelSystemBuilder, ChannelSystemRun, CsError, Fails, Limit, PgId};
use crate::program_graph::{Action, Clock, Location, PgError, PgExpression, ProgramGraphBuilder, Var};
use crate::recording::{BLOCK, Call, Record, Recorder, ReplayError, fault, record_at};
use crate::{BooleanExpr, Expression, IntegerExpr, Rng, SplitMix, TimeRange, Type, Val};
use std::fmt::Debug;
use std::ops::{Bound, RangeBounds};

/// Random numbers that like the edges.
struct Chance(SplitMix);

impl Chance {
    fn new(seed: u64) -> Self {
        Chance(SplitMix::new(seed))
    }

    fn word(&mut self) -> u64 {
        self.0.next_word()
    }

    fn below(&mut self, n: u64) -> u64 {
        self.word() % n
    }

    fn one_in(&mut self, n: u64) -> bool {
        self.below(n) == 0
    }

    /// A number of a part: mostly one that may be there.
    fn number(&mut self) -> u32 {
        const EDGES: [u32; 12] = [7, 8, 15, 16, 31, 32, 127, 128, 65_535, 65_536, u32::MAX - 1, u32::MAX];
        match self.below(12) {
            0 => EDGES[self.below(12) as usize],
            1 => self.word() as u32,
            _ => self.below(4) as u32,
        }
    }

    fn list<T>(&mut self, mut one: impl FnMut(&mut Self) -> T) -> Vec<T> {
        let most = if self.one_in(8) { 40 } else { 4 };
        (0..self.below(most)).map(|_| one(self)).collect()
    }

    fn integer(&mut self) -> i32 {
        const EDGES: [i32; 6] = [0, 1, -1, i32::MAX, i32::MIN, 64];
        if self.one_in(3) { self.word() as i32 } else { EDGES[self.below(6) as usize] }
    }

    fn val(&mut self) -> Val {
        if self.one_in(2) { Val::from(self.one_in(2)) } else { Val::from(self.integer()) }
    }

    fn range(&mut self) -> TimeRange {
        let mut bound = || {
            let time = self.number();
            [Bound::Unbounded, Bound::Included(time), Bound::Excluded(time)][self.below(3) as usize]
        };
        TimeRange::new((bound(), bound()))
    }

    fn boolean<V: Copy>(&mut self, depth: u32, var: &mut dyn FnMut(&mut Self) -> V) -> BooleanExpr<V> {
        let kind = self.below(if depth == 0 { 3 } else { 10 });
        let mut both = |chance: &mut Self| Box::new((chance.boolean(depth - 1, var), chance.boolean(depth - 1, var)));
        match kind {
            0 => BooleanExpr::Const(self.one_in(2)),
            1 => BooleanExpr::Var(var(self)),
            2 if self.one_in(4) => BooleanExpr::Draw,
            2 => BooleanExpr::Const(true),
            3 => BooleanExpr::Not(Box::new(self.boolean(depth - 1, var))),
            4 => BooleanExpr::And(both(self)),
            5 => BooleanExpr::Or(both(self)),
            6 => BooleanExpr::Equal(both(self)),
            _ => {
                let both = Box::new((self.integers(depth - 1, var), self.integers(depth - 1, var)));
                match kind {
                    7 => BooleanExpr::IntEqual(both),
                    8 => BooleanExpr::IntLess(both),
                    _ => BooleanExpr::IntLessEq(both),
                }
            }
        }
    }

    fn integers<V: Copy>(&mut self, depth: u32, var: &mut dyn FnMut(&mut Self) -> V) -> IntegerExpr<V> {
        let kind = self.below(if depth == 0 { 2 } else { 8 });
        let mut both = |chance: &mut Self| Box::new((chance.integers(depth - 1, var), chance.integers(depth - 1, var)));
        match kind {
            0 => IntegerExpr::Const(self.integer()),
            1 => IntegerExpr::Var(var(self)),
            2 => IntegerExpr::Opposite(Box::new(self.integers(depth - 1, var))),
            3 => IntegerExpr::Add(both(self)),
            4 => IntegerExpr::Sub(both(self)),
            5 => IntegerExpr::Mul(both(self)),
            6 => IntegerExpr::Div(both(self)),
            _ => IntegerExpr::Rem(both(self)),
        }
    }

    fn expression<V: Copy>(&mut self, var: &mut dyn FnMut(&mut Self) -> V) -> Expression<V> {
        let depth = if self.one_in(10) { 9 } else { 2 };
        if self.one_in(2) { self.boolean(depth, var).into() } else { self.integers(depth, var).into() }
    }
}

/// A refusal of what the crate wrote itself has a name, and it is none of 32, 35 and 36.
fn named(number: u32, refusal: &dyn Debug) {
    assert!((1..=31).contains(&number), "{refusal:?}");
}

fn var(chance: &mut Chance) -> Var {
    Var(chance.number())
}

fn graph_call(chance: &mut Chance, pg: &mut ProgramGraphBuilder) -> Result<(), PgError> {
    let limits = |chance: &mut Chance| chance.list(|chance| (Clock(chance.number()), chance.range()));
    match chance.below(14) {
        0 => pg.new_var(chance.val()).map(drop),
        1 => pg.new_clock().map(drop),
        2 => pg.new_action().map(drop),
        3 => pg.add_reset(Action(chance.number()), Clock(chance.number())),
        4 => pg.add_effect(Action(chance.number()), var(chance), chance.expression(&mut var)),
        5 => pg.new_send(chance.list(|chance| chance.expression(&mut var))).map(drop),
        6 => pg.new_receive(chance.list(var)).map(drop),
        7 => pg.new_timed_location(limits(chance)).map(drop),
        8 => pg.new_process(Location(chance.number())),
        9 => pg.new_initial_timed_location(limits(chance)).map(drop),
        10 => pg.var_type(var(chance)).map(drop),
        _ => {
            let guard = chance.one_in(2).then(|| chance.boolean(2, &mut var));
            let (pre, post) = (Location(chance.number()), Location(chance.number()));
            pg.add_timed_transition(pre, Action(chance.number()), post, guard, limits(chance))
        }
    }
}

#[test]
fn graphs() {
    let (mut accepted, mut refused) = (0, 0);
    for seed in 0..60 {
        let mut chance = Chance::new(seed);
        let mut pg = ProgramGraphBuilder::new();
        for _ in 0..150 {
            let before = pg.clone();
            match graph_call(&mut chance, &mut pg) {
                Ok(()) => accepted += 1,
                Err(refusal) => {
                    refused += 1;
                    named(refusal.number(), &refusal);
                    assert!(pg.same_words(&before), "{refusal} changed the table");
                }
            }
        }
        let Ok(pg) = pg.build() else { continue };
        let mut run = pg.new_instance();
        for _ in 0..200 {
            let before = run.clone();
            let (action, word) = (Action(chance.number()), chance.word());
            let posts = if chance.one_in(6) { chance.list(|c| Location(c.number())) } else { run.current_states() };
            let answer = match chance.below(7) {
                0 => run.send(action, &posts, &mut || word).map(drop),
                1 => run.receive(action, &posts, &chance.list(Chance::val)),
                2 => run.wait(chance.number()),
                3 => run.value(var(&mut chance)).map(drop),
                4 => run.clock(Clock(chance.number())).map(drop),
                5 => run.nosync_possible_transitions().map(|listed| {
                    let _ = listed.count();
                }),
                _ => run.transition(action, &posts, &mut || word),
            };
            match answer {
                Ok(()) => accepted += 1,
                Err(refusal) => {
                    refused += 1;
                    named(refusal.number(), &refusal);
                    assert!(run.same_words(&before), "{refusal} changed the run");
                }
            }
            let _ = (run.is_waiting(), run.can_wait(chance.number()), run.possible_transitions().count());
        }
    }
    assert!(accepted > 2000 && refused > 2000, "{accepted} accepted, {refused} refused");
}

fn system_call(chance: &mut Chance, builder: &mut ChannelSystemBuilder) -> Result<(), cs::CsError> {
    let pg = PgId(chance.number());
    // Mostly a part of the same graph.
    let owner = move |chance: &mut Chance| if chance.one_in(20) { PgId(chance.number()) } else { pg };
    let mut var = move |chance: &mut Chance| cs::Var(owner(chance), Var(chance.number()));
    let location = move |chance: &mut Chance| cs::Location(owner(chance), Location(chance.number()));
    let action = move |chance: &mut Chance| cs::Action(owner(chance), Action(chance.number()));
    let clock = move |chance: &mut Chance| cs::Clock(owner(chance), Clock(chance.number()));
    let limits = move |chance: &mut Chance| chance.list(|chance| (clock(chance), chance.range()));
    let channel = Channel(chance.number());
    match chance.below(18) {
        0 => builder.new_program_graph().map(drop),
        1 => {
            let types = chance.list(|chance| if chance.one_in(2) { Type::Boolean } else { Type::Integer });
            let capacity = match chance.below(4) {
                0 => ChannelCapacity::Sink,
                1 => ChannelCapacity::Queue(None),
                _ => ChannelCapacity::Queue(Some(chance.number())),
            };
            builder.new_channel(types, capacity).map(drop)
        }
        2 => builder.new_var(pg, chance.val()).map(drop),
        3 => builder.new_clock(pg).map(drop),
        4 => builder.new_action(pg).map(drop),
        5 => builder.add_reset(pg, action(chance), clock(chance)),
        6 => builder.add_effect(pg, action(chance), var(chance), chance.expression(&mut var)),
        7 => builder.new_send(pg, channel, chance.list(|chance| chance.expression(&mut var))).map(drop),
        8 => builder.new_receive(pg, channel, chance.list(&mut var)).map(drop),
        9 => builder.new_probe_empty_queue(pg, channel).map(drop),
        10 => builder.new_probe_full_queue(pg, channel).map(drop),
        11 => builder.new_timed_location(pg, limits(chance)).map(drop),
        12 => builder.new_process(pg, location(chance)),
        13 => builder.new_initial_timed_location(pg, limits(chance)).map(drop),
        14 => builder.var_type(var(chance)).map(drop),
        _ => {
            let guard = chance.one_in(2).then(|| chance.boolean(2, &mut var));
            let (pre, by, post) = (location(chance), action(chance), location(chance));
            builder.add_timed_transition(pg, pre, by, post, guard, limits(chance))
        }
    }
}

/// Of a plain step `why` answers what the step did, and what it names as the cause of an 8 does not hold. It says which sort fails.
fn explained(
    run: &ChannelSystemRun<'_>,
    pg: PgId,
    action: cs::Action,
    posts: &[cs::Location],
    answer: &Result<(), CsError>,
) -> Option<usize> {
    let why = run.why(pg, action, posts);
    if run.def().communication(action).is_some() {
        assert!(matches!(&why, Err(refusal) if [7, 13, 17, 18, 19].contains(&refusal.number())), "{why:?}");
        return None;
    }
    let Ok(Some(cause)) = why else {
        assert_eq!(why.map(drop), *answer);
        return None;
    };
    assert_eq!(answer.map_err(|refusal| refusal.number()), Err(8));
    let limits = |limit: &Limit| assert!(!limit.range.contains(&limit.reads), "{cause}");
    Some(match &cause.fails {
        Fails::NoCandidate => 0,
        Fails::Guard { value, .. } => {
            assert_ne!(*value, Some(Val::from(true)), "{cause}");
            1
        }
        Fails::Limit(limit) => {
            limits(limit);
            2
        }
        Fails::Invariant { limit, .. } => {
            limits(limit);
            3
        }
    })
}

#[test]
fn systems() {
    let (mut accepted, mut refused, mut causes) = (0, 0, [0; 4]);
    for seed in 0..12 {
        let mut chance = Chance::new(seed);
        let mut builder = ChannelSystemBuilder::new();
        for _ in 0..2 {
            builder.new_program_graph().expect("there is room");
        }
        for _ in 0..250 {
            let before = builder.clone();
            match system_call(&mut chance, &mut builder) {
                Ok(()) => accepted += 1,
                Err(refusal) => {
                    refused += 1;
                    named(refusal.number(), &refusal);
                    assert!(builder.same_words(&before), "{refusal} changed the table");
                }
            }
        }
        for pg in 0..8 {
            let _ = builder.new_initial_location(PgId(pg));
        }
        let Ok(system) = builder.build() else { continue };
        let mut run = system.new_seeded_instance(seed);
        let mut recorder = Recorder::new(vec![]);
        let number_of = |answer: &Result<(), CsError>| answer.map_or_else(|refusal| refusal.number() as u8, |()| 0);
        for _ in 0..300 {
            let before = run.clone();
            let pg = PgId(chance.number());
            let answer = match chance.below(5) {
                0 => {
                    let delta = chance.number();
                    let answer = run.wait(delta);
                    assert!(recorder.add(&Record { call: Call::Wait { delta }, answer: number_of(&answer) }));
                    answer
                }
                1 => run.queue(Channel(chance.number())).map(drop),
                2 => run.nosync_possible_transitions_pg(pg).map(|listed| {
                    let _ = listed.count();
                }),
                3 => run.program_graph(pg).map(|graph| {
                    let _ = graph.possible_transitions().count();
                }),
                _ => {
                    let posts = run.program_graph(pg).map(|graph| graph.current_states()).unwrap_or_default();
                    let posts: Vec<_> = posts.into_iter().map(|post| cs::Location(pg, post)).collect();
                    let foreign = chance.one_in(20);
                    let owner = if foreign { PgId(chance.number()) } else { pg };
                    let action = cs::Action(owner, Action(chance.number()));
                    let answer = run.transition(pg, action, &posts).map(drop);
                    if let Some(sort) = explained(&before, pg, action, &posts, &answer) {
                        causes[sort] += 1;
                    }
                    let call = Call::Step { pg_id: pg, action, post: posts, word: before.next_word() };
                    let added = recorder.add(&Record { call, answer: number_of(&answer) });
                    assert!(added || answer.is_err());
                    answer
                }
            };
            match answer {
                Ok(()) => accepted += 1,
                Err(refusal) => {
                    refused += 1;
                    named(refusal.number(), &refusal);
                    assert!(run == before, "{refusal} changed the state");
                }
            }
            let _ = (run.is_waiting(), run.can_wait(chance.number()), run.possible_transitions().count(), run.time());
        }
        let bytes = recorder.finish().expect("a list takes all");
        let mut again = system.new_instance();
        assert!(again.replay(&bytes).is_ok_and(|records| records > 50));
        assert!(again.words() == run.words());
    }
    assert!(accepted > 1000 && refused > 1000, "{accepted} accepted, {refused} refused");
    // tests/causes.rs has the other sorts.
    assert!(causes[0] > 50, "{causes:?}");
}

/// Writes a few words over, or cuts the slice.
fn spoil(chance: &mut Chance, words: &mut Box<[u64]>) {
    for _ in 0..1 + chance.below(3) {
        let near = [8, 80, 2_200, words.len() as u64][chance.below(4) as usize].min(words.len() as u64);
        let word = if chance.one_in(2) { chance.word() } else { chance.number().into() };
        words[chance.below(near) as usize] = word;
    }
    if chance.one_in(12) {
        *words = words[..chance.below(words.len() as u64) as usize].into();
    }
}

fn any_number(answer: Result<(), u32>) {
    assert!(answer.is_ok() || answer.is_err_and(|number| (1..=32).contains(&number)), "{answer:?}");
}

#[test]
fn spoilt_graphs() {
    let mut chance = Chance::new(77);
    for _ in 0..400 {
        let mut table = GraphTable::new();
        let mut place = |table: &mut GraphTable| {
            let _ = archive::new_var(Place::Alone(table), chance.val());
            let _ = archive::new_clock(Place::Alone(table));
            let _ = archive::new_initial_timed_location(Place::Alone(table), &[]);
            let _ = archive::new_action(Place::Alone(table));
            let _ = archive::add_timed_transition(Place::Alone(table), (0, 0, 0), None, &[]);
        };
        place(&mut table);
        let mut run: RunWords = archive::new_run(&table);
        spoil(&mut chance, table.words());
        spoil(&mut chance, run.words());
        let (before, run_before) = (table.clone(), run.clone());
        let answer = archive::new_clock(Place::Alone(&mut table)).map(drop);
        assert!(answer.is_ok() || table == before);
        any_number(answer);
        table = before;
        let answer = archive::transition(&table, &mut run, chance.number(), &[0], 0);
        assert!(answer.is_ok() || run == run_before);
        any_number(answer);
        any_number(archive::wait(&table, &mut run, chance.number()));
        any_number(archive::send(&table, &mut run, 0, &[0], 0).map(drop));
        any_number(archive::nosync_possible(&table, &run, 0).map(drop));
        any_number(archive::build_graph(&table));
    }
}

#[test]
fn spoilt_systems() {
    let mut chance = Chance::new(78);
    let mut fresh = SystemTable::new();
    let _ = archive::new_program_graph(&mut fresh);
    let _ = archive::new_channel(&mut fresh, &[Type::Integer], ChannelCapacity::Queue(Some(2)));
    let _ = archive::new_initial_timed_location(Place::Inside(&mut fresh, 0), &[]);
    let one = PgExpression::from(1);
    let items = crate::grammar::Items::of(&one, &|_| None);
    let _ = archive::new_send_on(&mut fresh, 0, 0, &[items.words()]);
    let _ = archive::add_timed_transition(Place::Inside(&mut fresh, 0), (0, 0, 0), None, &[]);
    let state: StateWords = archive::new_state(&fresh);
    for _ in 0..150 {
        let (mut table, mut state) = (fresh.clone(), state.clone());
        if chance.one_in(2) {
            spoil(&mut chance, table.words());
        }
        spoil(&mut chance, state.words());
        let before = state.clone();
        let answer = archive::step(&table, &mut state, 0, (0, 0), &[(0, 0)], 0).map(drop);
        assert!(answer.is_ok() || state == before);
        any_number(answer);
        any_number(archive::wait_all(&table, &mut state, chance.number()).map_err(|(number, _)| number));
        any_number(archive::queue(&table, &state, chance.number()).map(drop));
        any_number(archive::possible_on(&table, &state, 0, 0).map(drop));
        any_number(archive::run_of(&state, chance.number()).map(drop));
        any_number(archive::why(&table, &state, chance.number(), (0, 0), &[(0, 0)], 0).map(drop));
        any_number(archive::build_system(&table));
    }
}

/// Any bytes, and a good block with a few of them changed, of which half have a right sum.
#[test]
fn any_bytes() -> Result<(), CsError> {
    let mut builder = ChannelSystemBuilder::new();
    let pg = builder.new_program_graph()?;
    builder.new_initial_location(pg)?;
    let system = builder.build()?;
    let mut live = system.new_instance().record(Recorder::new(vec![]));
    for delta in 0..20 {
        live.wait(delta)?;
    }
    let (end, good) = live.finish().expect("a list takes all");
    let (start, mut chance, mut found) = (system.new_instance(), Chance::new(79), [0; 3]);
    for _ in 0..3000 {
        let mut bytes = good.clone();
        for _ in 0..1 + chance.below(2) {
            let (near, byte) = ([40, bytes.len() as u64][chance.below(2) as usize], chance.word() as u8);
            // Mostly what a record has at its start or its answer, else any place.
            let place = if chance.one_in(2) { [28, 29, 32, 33, 52, 508][chance.below(6) as usize] } else { chance.below(near) };
            bytes[place as usize] = if chance.one_in(2) { byte } else { byte % 4 };
        }
        if chance.one_in(2) {
            for block in bytes.chunks_exact_mut(BLOCK) {
                let sum: u32 = block[..508].iter().zip(1..).map(|(byte, place)| u32::from(*byte) * place).sum();
                block[508..].copy_from_slice(&sum.to_le_bytes());
            }
        }
        let mut run = start.clone();
        match run.replay(&bytes) {
            Ok(records) => {
                found[0] += 1;
                assert!(records <= 30 && (0..2).all(|block| fault(&bytes, block).is_none()));
                assert!(run == end || bytes != good);
            }
            Err(ReplayError::BadBlock { block }) => {
                found[1] += 1;
                assert!(run == start && fault(&bytes, block).is_some(), "block {block}");
            }
            Err(ReplayError::Differs { block, record, .. }) => {
                found[2] += 1;
                assert!(run == start && fault(&bytes, block).is_none() && record_at(&bytes, block, record).is_some());
            }
            Err(other) => panic!("{other}"),
        }
        let any: Vec<u8> = (0..chance.below(1200)).map(|_| chance.word() as u8).collect();
        let mut run = start.clone();
        assert_eq!(run.replay(&any), if any.is_empty() { Ok(0) } else { Err(ReplayError::BadBlock { block: 0 }) });
        assert!(run == start);
    }
    assert!(found.iter().all(|times| *times > 100), "{found:?}");
    Ok(())
}
