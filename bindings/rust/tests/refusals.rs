//! Every refusal that a call of this crate can give: its number, its text, and that it leaves everything as it was.

use njunnemar::channel_system::{Action, ChannelCapacity, ChannelSystemBuilder, CsError, CsExpression, EventType, PgId, refusal_name};
use njunnemar::program_graph::{Action as PgAction, PgError, PgExpression, ProgramGraphBuilder, Var as PgVar};
use njunnemar::{BooleanExpr, IntegerExpr, SplitMix, TimeRange, Type, TypeError, Val};
use std::error::Error;
use std::fmt::Debug;

fn pg_refused<T: Debug + PartialEq>(answer: Result<T, PgError>, refusal: PgError, number: u32, text: &str) {
    assert_eq!(answer, Err(refusal));
    assert_eq!((refusal.number(), refusal.to_string().as_str()), (number, text));
    assert_eq!(refusal.name(), rule(number));
}

/// The name of a refusal in docs/RULES.md.
fn rule(number: u32) -> &'static str {
    let rules = include_str!("../../../docs/RULES.md");
    let row = rules.lines().find_map(|line| line.strip_prefix(&format!("| {number} | ")));
    row.and_then(|row| row.split(" | ").next()).expect("a row of the table")
}

fn cs_refused<T: Debug + PartialEq>(answer: Result<T, CsError>, refusal: CsError, number: u32, text: &str) {
    assert_eq!(answer, Err(refusal));
    assert_eq!((refusal.number(), refusal.to_string().as_str()), (number, text));
    // This crate's own tests have names of scan_core's that the rules lack.
    if !matches!(refusal, CsError::VarNotInPg(..) | CsError::ClockNotInPg(..)) {
        assert_eq!(refusal.name(), rule(number));
    }
}

fn rng() -> SplitMix {
    SplitMix::new(1)
}

/// A builder that has many of everything, so that its ids are unknown elsewhere.
fn large() -> Result<ProgramGraphBuilder, PgError> {
    let mut pg = ProgramGraphBuilder::new();
    for _ in 0..5 {
        pg.new_action()?;
        pg.new_clock()?;
        pg.new_location()?;
        pg.new_var(Val::from(0))?;
    }
    Ok(pg)
}

#[test]
fn building_a_graph() -> Result<(), PgError> {
    let mut other = large()?;
    let (action_5, clock_5) = (other.new_action()?, other.new_clock()?);
    let (location_5, var_5) = (other.new_location()?, other.new_var(Val::from(0))?);

    let mut pg = ProgramGraphBuilder::new();
    let (flag, number) = (pg.new_var(Val::from(true))?, pg.new_var(Val::from(0))?);
    let (action, clock, location) = (pg.new_action()?, pg.new_clock()?, pg.new_location()?);
    let send = pg.new_send(vec![PgExpression::from(1)])?;
    let receive = pg.new_receive(vec![number])?;

    pg_refused(pg.add_reset(action_5, clock), PgError::MissingAction(action_5), 1, "the graph has no action A5");
    pg_refused(pg.add_reset(action, clock_5), PgError::MissingClock(clock_5), 2, "the graph has no clock c5");
    let limits = vec![(clock, TimeRange::new(..)), (clock_5, TimeRange::new(..))];
    pg_refused(pg.new_timed_location(limits), PgError::MissingClock(clock_5), 2, "the graph has no clock c5");
    pg_refused(pg.new_process(location_5), PgError::MissingLocation(location_5), 3, "the graph has no location L5");
    let answer = pg.add_transition(location, action, location_5, None);
    pg_refused(answer, PgError::MissingLocation(location_5), 3, "the graph has no location L5");
    pg_refused(pg.new_receive(vec![flag, var_5]), PgError::MissingVar(var_5), 4, "the graph has no variable v5");
    pg_refused(pg.var_type(var_5), PgError::MissingVar(var_5), 4, "the graph has no variable v5");
    let answer = pg.add_effect(action, flag, PgExpression::from(1));
    pg_refused(answer, PgError::TypeMismatch, 5, "values of another type or count than asked");

    let unknown = PgExpression::from_var(var_5, Type::Integer);
    let text = "an expression that may not stand here: an unknown variable";
    pg_refused(pg.add_effect(action, number, unknown.clone()), PgError::Type(TypeError::UnknownVar), 6, text);
    pg_refused(pg.new_send(vec![unknown]), PgError::Type(TypeError::UnknownVar), 6, text);
    let as_boolean = PgExpression::from_var(number, Type::Boolean);
    let text = "an expression that may not stand here: the types do not match";
    pg_refused(pg.add_effect(action, flag, as_boolean), PgError::Type(TypeError::TypeMismatch), 6, text);
    let answer = pg.add_transition(location, action, location, Some(BooleanExpr::Draw));
    pg_refused(answer, PgError::Type(TypeError::Draws), 6, "an expression that may not stand here: a guard may not draw");
    assert!(PgError::Type(TypeError::Draws).source().is_some());

    let late = vec![(clock, TimeRange::new(1..))];
    pg_refused(pg.new_initial_timed_location(late), PgError::Invariant, 9, "a time invariant stands against it");
    let answer = pg.add_reset(PgAction::EPSILON, clock);
    pg_refused(answer, PgError::NoEffects, 10, "epsilon has no effects and no resets");
    pg_refused(pg.add_reset(send, clock), PgError::EffectOnSend, 11, "a send has no effects and no resets");
    let answer = pg.add_effect(receive, number, PgExpression::from(1));
    pg_refused(answer, PgError::EffectOnReceive, 12, "a receive has no effects and no resets");

    // 64 items are taken, 65 are not.
    let ones = |n: usize| (1..n).fold(IntegerExpr::from(1), |sum, _| sum + IntegerExpr::<PgVar>::from(1));
    pg.add_effect(action, number, ones(32).into())?;
    let answer = pg.add_effect(action, number, ones(33).into());
    pg_refused(answer, PgError::TableFull, 28, "one more than there is room for");
    for _ in 1..8 {
        pg.new_clock()?;
    }
    pg_refused(pg.new_clock(), PgError::TableFull, 28, "one more than there is room for");
    let refused = pg.build().map(drop);
    pg_refused(refused, PgError::NoProcess, 29, "a graph without a process");
    Ok(())
}

#[test]
fn running_a_graph() -> Result<(), PgError> {
    let mut other = large()?;
    let (action_5, location_5) = (other.new_action()?, other.new_location()?);
    let (clock_5, var_5) = (other.new_clock()?, other.new_var(Val::from(0))?);

    let mut pg = ProgramGraphBuilder::new();
    let (number, clock) = (pg.new_var(Val::from(0))?, pg.new_clock()?);
    let here = pg.new_initial_timed_location(vec![(clock, TimeRange::new(..=9))])?;
    let divide = pg.new_action()?;
    pg.add_effect(divide, number, (IntegerExpr::from(1) / number.into()).into())?;
    let send = pg.new_send(vec![PgExpression::from(true), PgExpression::from(-7)])?;
    let receive = pg.new_receive(vec![number])?;
    for action in [divide, send, receive] {
        pg.add_transition(here, action, here, None)?;
    }
    let closed = pg.new_action()?;
    pg.add_transition(here, closed, here, Some(BooleanExpr::from(false)))?;
    let pg = pg.build()?;
    let mut run = pg.new_instance();

    pg_refused(run.transition(action_5, &[here], &mut rng()), PgError::MissingAction(action_5), 1, "the graph has no action A5");
    pg_refused(run.clock(clock_5), PgError::MissingClock(clock_5), 2, "the graph has no clock c5");
    let answer = run.transition(divide, &[location_5], &mut rng());
    pg_refused(answer, PgError::MissingLocation(location_5), 3, "the graph has no location L5");
    pg_refused(run.value(var_5), PgError::MissingVar(var_5), 4, "the graph has no variable v5");
    let answer = run.receive(receive, &[here], &[Val::from(true)]);
    pg_refused(answer, PgError::TypeMismatch, 5, "values of another type or count than asked");
    let many = vec![Val::from(1); 100];
    let answer = run.receive(receive, &[here], &many);
    pg_refused(answer, PgError::TypeMismatch, 5, "values of another type or count than asked");
    for posts in [vec![], vec![here; 2], vec![here; 1000]] {
        let answer = run.transition(divide, &posts, &mut rng());
        pg_refused(answer, PgError::MismatchingPostStates, 7, "not one post-location for each process");
    }
    let text = "no transition there passes its guard, its limits and the invariants";
    pg_refused(run.transition(closed, &[here], &mut rng()), PgError::UnsatisfiedGuard, 8, text);
    pg_refused(run.wait(10), PgError::Invariant, 9, "a time invariant stands against it");
    assert!(run.can_wait(9) && !run.can_wait(10));
    let answer = run.transition(send, &[here], &mut rng());
    pg_refused(answer, PgError::Communication(send), 13, "A1 is a communication, and no plain action");
    pg_refused(run.send(receive, &[here], &mut rng()), PgError::NotSend(receive), 14, "A2 is no send");
    let answer = run.send(PgAction::EPSILON, &[here], &mut rng());
    pg_refused(answer, PgError::NotSend(PgAction::EPSILON), 14, "epsilon is no send");
    pg_refused(run.receive(send, &[here], &[]), PgError::NotReceive(send), 15, "A1 is no receive");
    let text = "a time past 4294967295, or an expression without a value";
    pg_refused(run.transition(divide, &[here], &mut rng()), PgError::Overflow, 26, text);

    // Accepted, all of it as it was before the refusals.
    assert_eq!(run.value(number), Ok(Val::from(0)));
    assert_eq!(run.send(send, &[here], &mut rng()), Ok(vec![Val::from(true), Val::from(-7)]));
    run.receive(receive, &[here], &[Val::from(-1)])?;
    run.transition(divide, &[here], &mut rng())?;
    assert_eq!(run.value(number), Ok(Val::from(-1)));
    run.wait(9)?;
    assert_eq!((run.clock(clock), run.current_states()), (Ok(9), vec![here]));
    assert!(!run.is_waiting());
    Ok(())
}

#[test]
fn several_processes() -> Result<(), PgError> {
    let mut pg = ProgramGraphBuilder::new();
    let (one, two) = (pg.new_initial_location()?, pg.new_initial_location()?);
    let both = pg.new_action()?;
    pg.add_transition(one, both, two, None)?;
    pg.add_transition(two, both, one, None)?;
    pg.add_transition(two, both, two, None)?;
    let pg = pg.build()?;
    let mut run = pg.new_instance();
    let listed: Vec<_> = run.possible_transitions().map(|(a, posts)| (a, posts.map(Vec::from_iter).collect::<Vec<_>>())).collect();
    assert_eq!(listed, [(both, vec![vec![two], vec![one, two]])]);
    let answer = run.nosync_possible_transitions().map(drop);
    pg_refused(answer, PgError::Sync, 16, "the graph has not exactly one process");
    run.transition(both, &[two, one], &mut rng())?;
    assert_eq!(run.current_states(), [two, one]);
    Ok(())
}

/// The fifth graph of a system, and the ninth channel: unknown to small systems.
fn strangers() -> Result<(PgId, Action, ChannelSystemBuilder), CsError> {
    let mut other = ChannelSystemBuilder::new();
    for _ in 0..4 {
        other.new_program_graph()?;
    }
    let pg = other.new_program_graph()?;
    let action = other.new_action(pg)?;
    Ok((pg, action, other))
}

#[test]
fn building_a_system() -> Result<(), CsError> {
    let (stranger, foreign, mut other) = strangers()?;
    let (foreign_location, foreign_var) = (other.new_location(stranger)?, other.new_var(stranger, Val::from(1))?);
    let foreign_clock = other.new_clock(stranger)?;
    for _ in 0..5 {
        other.new_channel(vec![], None)?;
    }
    let channel_5 = other.new_channel(vec![], None)?;

    let mut cs = ChannelSystemBuilder::new();
    let pg = cs.new_program_graph()?;
    let channel = cs.new_channel(vec![Type::Integer], Some(2))?;
    let (action, location, var) = (cs.new_action(pg)?, cs.new_location(pg)?, cs.new_var(pg, Val::from(0))?);

    cs_refused(cs.new_action(stranger), CsError::MissingPg(stranger), 17, "the system has no graph 4");
    let answer = cs.new_send(stranger, channel, vec![]);
    cs_refused(answer, CsError::MissingPg(stranger), 17, "the system has no graph 4");
    let answer = cs.add_transition(pg, location, foreign, location, None);
    cs_refused(answer, CsError::ActionNotInPg(foreign, pg), 18, "action A0 of graph 4, and not of graph 0");
    let answer = cs.add_transition(pg, location, action, foreign_location, None);
    cs_refused(answer, CsError::LocationNotInPg(foreign_location, pg), 19, "location L0 of graph 4, and not of graph 0");
    let answer = cs.add_effect(pg, action, foreign_var, CsExpression::from(1));
    cs_refused(answer, CsError::VarNotInPg(foreign_var, pg), 4, "variable v0 of graph 4, and not of graph 0");
    let answer = cs.add_reset(pg, action, foreign_clock);
    cs_refused(answer, CsError::ClockNotInPg(foreign_clock, pg), 2, "clock c0 of graph 4, and not of graph 0");
    let foreign = IntegerExpr::from(foreign_var).into();
    let refusal = CsError::ProgramGraph(pg, PgError::Type(TypeError::UnknownVar));
    let text = "graph 0: an expression that may not stand here: an unknown variable";
    cs_refused(cs.add_effect(pg, action, var, foreign), refusal, 6, text);
    assert!(refusal.source().is_some());
    let refusal = CsError::ProgramGraph(pg, PgError::TypeMismatch);
    let text = "graph 0: values of another type or count than asked";
    cs_refused(cs.new_send(pg, channel, vec![CsExpression::from(true)]), refusal, 5, text);
    cs_refused(cs.new_receive(pg, channel, vec![var, var]), refusal, 5, text);
    let answer = cs.new_receive(pg, channel_5, vec![var]);
    cs_refused(answer, CsError::MissingChannel(channel_5), 30, "the system has no channel 5");
    let answer = cs.new_channel(vec![Type::Boolean], Some(65));
    cs_refused(answer, CsError::ChannelTooLarge, 31, "a queue that would hold more than 64 values");
    let answer = cs.new_channel(vec![Type::Boolean; 5], None);
    cs_refused(answer, CsError::TableFull, 28, "one more than there is room for");
    let refused = cs.clone().build().map(drop);
    cs_refused(refused, CsError::NoProcess, 29, "a graph without a process");
    for _ in 1..8 {
        cs.new_program_graph()?;
    }
    cs_refused(cs.new_program_graph(), CsError::TableFull, 28, "one more than there is room for");
    Ok(())
}

#[test]
fn running_a_system() -> Result<(), CsError> {
    let (stranger, foreign, mut other) = strangers()?;
    let foreign_location = other.new_location(stranger)?;
    let mut cs = ChannelSystemBuilder::new();
    let pg = cs.new_program_graph()?;
    let (bounded, unbounded) = (cs.new_channel(vec![Type::Integer], Some(1))?, cs.new_channel(vec![Type::Integer; 4], None)?);
    let (handshake, sink) = (cs.new_channel(vec![], Some(0))?, cs.new_channel(vec![Type::Integer], ChannelCapacity::Sink)?);
    let (var, clock) = (cs.new_var(pg, Val::from(0))?, cs.new_clock(pg)?);
    let here = cs.new_initial_location(pg)?;
    let limited = cs.new_timed_location(pg, vec![(clock, TimeRange::new(..=5))])?;
    let one = || CsExpression::from(1);
    let send = cs.new_send(pg, bounded, vec![one()])?;
    let receive = cs.new_receive(pg, bounded, vec![var])?;
    let (empty, full) = (cs.new_probe_empty_queue(pg, bounded)?, cs.new_probe_full_queue(pg, bounded)?);
    let much = cs.new_send(pg, unbounded, vec![one(), one(), one(), one()])?;
    let full_unbounded = cs.new_probe_full_queue(pg, unbounded)?;
    let probe = cs.new_probe_empty_queue(pg, handshake)?;
    let drop_it = cs.new_send(pg, sink, vec![one()])?;
    let from_sink = cs.new_receive(pg, sink, vec![var])?;
    let closed = cs.new_receive(pg, bounded, vec![var])?;
    for action in [send, receive, empty, full, much, full_unbounded, probe, drop_it, from_sink] {
        cs.add_transition(pg, here, action, here, None)?;
    }
    cs.add_transition(pg, here, closed, here, Some(BooleanExpr::from(false)))?;
    cs.add_autonomous_transition(pg, here, limited, None)?;
    let cs = cs.build()?;
    let mut run = cs.new_instance();

    cs_refused(run.transition(stranger, foreign, &[]), CsError::MissingPg(stranger), 17, "the system has no graph 4");
    cs_refused(run.program_graph(stranger).map(drop), CsError::MissingPg(stranger), 17, "the system has no graph 4");
    let answer = run.transition(pg, foreign, &[here]);
    cs_refused(answer, CsError::ActionNotInPg(foreign, pg), 18, "action A0 of graph 4, and not of graph 0");
    let answer = run.transition(pg, send, &[here, foreign_location]);
    cs_refused(answer, CsError::LocationNotInPg(foreign_location, pg), 19, "location L0 of graph 4, and not of graph 0");
    cs_refused(run.transition(pg, receive, &[here]), CsError::Empty(bounded), 21, "channel 0 has nothing to receive");
    cs_refused(run.transition(pg, from_sink, &[here]), CsError::Empty(sink), 21, "channel 3 has nothing to receive");
    cs_refused(run.transition(pg, full, &[here]), CsError::NotFull(bounded), 23, "channel 0 is not full");
    let answer = run.transition(pg, probe, &[here]);
    cs_refused(answer, CsError::ProbingHandshakeChannel(handshake), 24, "channel 2 has capacity 0 and cannot be probed");
    let answer = run.transition(pg, full_unbounded, &[here]);
    cs_refused(answer, CsError::ProbingInfiniteQueue(unbounded), 25, "channel 1 has no bound, so it is never full");

    let event = run.transition(pg, empty, &[here])?.expect("an event");
    assert_eq!(event.event_type, EventType::ProbeEmptyQueue);
    run.transition(pg, send, &[here])?;
    cs_refused(run.transition(pg, send, &[here]), CsError::OutOfCapacity(bounded), 20, "channel 0 is full");
    cs_refused(run.transition(pg, empty, &[here]), CsError::NotEmpty(bounded), 22, "channel 0 is not empty");
    let event = run.transition(pg, full, &[here])?.expect("an event");
    assert_eq!(event.event_type, EventType::ProbeFullQueue);
    for _ in 0..16 {
        run.transition(pg, much, &[here])?;
    }
    cs_refused(run.transition(pg, much, &[here]), CsError::NoRoom(unbounded), 27, "channel 1 has no room for the message");
    run.transition(pg, drop_it, &[here])?;
    assert_eq!((run.queue(sink)?, run.queue(unbounded)?.len()), (vec![], 64));

    // The receive with a false guard: refused, and the message is still there.
    let before = run.clone();
    let text = "graph 0: no transition there passes its guard, its limits and the invariants";
    let refusal = CsError::ProgramGraph(pg, PgError::UnsatisfiedGuard);
    cs_refused(run.transition(pg, closed, &[here]), refusal, 8, text);
    assert!(run == before);
    assert_eq!(run.queue(bounded)?, [Val::from(1)]);
    let text = "graph 0: not one post-location for each process";
    cs_refused(run.transition(pg, closed, &[]), CsError::ProgramGraph(pg, PgError::MismatchingPostStates), 7, text);

    run.transition(pg, Action::epsilon(pg), &[limited])?;
    let text = "graph 0: a time invariant stands against it";
    cs_refused(run.wait(6), CsError::ProgramGraph(pg, PgError::Invariant), 9, text);
    run.wait(5)?;
    assert_eq!(run.time(), 5);
    cs_refused(run.wait(u32::MAX), CsError::Overflow, 26, "a time past 4294967295");
    assert!(!run.can_wait(u32::MAX) && run.can_wait(0) && !run.is_waiting());
    assert!(run.possible_transitions().next().is_none());
    for _ in 0..5 {
        other.new_channel(vec![], None)?;
    }
    let channel_5 = other.new_channel(vec![], None)?;
    cs_refused(run.queue(channel_5), CsError::MissingChannel(channel_5), 30, "the system has no channel 5");
    Ok(())
}

#[test]
fn what_is_not_seen_has_a_text_too() {
    for (number, text) in
        [(PgError::BadState.number(), PgError::BadState.to_string()), (CsError::BadState.number(), CsError::BadState.to_string())]
    {
        assert_eq!(number, 32);
        assert!(text.ends_with("not well formed"));
    }
    assert_eq!(PgError::Unnamed(99).to_string(), "refusal 99");
    assert_eq!(CsError::Unnamed(99).number(), 99);
}

#[test]
fn constants() {
    let seven = || PgExpression::from(-7);
    assert_eq!((seven() / 2.into()).unwrap().eval_constant(), Ok(Val::from(-3)));
    assert_eq!((seven() % 2.into()).unwrap().eval_constant(), Ok(Val::from(-1)));
    assert_eq!((PgExpression::from(i32::MIN) / (-1).into()).unwrap().eval_constant(), Err(TypeError::NoValue));
    assert_eq!((seven() / 0.into()).unwrap().eval_constant(), Err(TypeError::NoValue));
    assert_eq!(seven().less_than(seven()).map(|b| PgExpression::from(b).eval_constant()), Ok(Ok(Val::from(false))));
    assert_eq!(PgExpression::from(BooleanExpr::Draw).eval_constant(), Err(TypeError::UnknownVar));
    assert_eq!((!PgExpression::from(true)).unwrap().eval_constant(), Ok(Val::from(false)));
    assert_eq!((-PgExpression::from(true)).err(), Some(TypeError::TypeMismatch));
    assert_eq!(seven().equal_to(true.into()).err(), Some(TypeError::TypeMismatch));
}

/// Each operation, on operands that tell it from the others.
#[test]
fn operations() {
    let integer = |tree: IntegerExpr<PgVar>| PgExpression::from(tree).eval_constant();
    let boolean = |tree: BooleanExpr<PgVar>| PgExpression::from(tree).eval_constant();
    let (nine, four) = (|| IntegerExpr::from(9), || IntegerExpr::from(4));
    for (tree, value) in
        [(nine() + four(), 13), (nine() - four(), 5), (nine() * four(), 36), (nine() / four(), 2), (nine() % four(), 1), (-nine(), -9)]
    {
        assert_eq!(integer(tree), Ok(Val::from(value)));
    }
    for (l, r, equal, less, less_equal) in [(4, 9, false, true, true), (9, 9, true, false, true), (9, 4, false, false, false)] {
        let both = || (IntegerExpr::from(l), IntegerExpr::from(r));
        assert_eq!(boolean(both().0.equal_to(both().1)), Ok(Val::from(equal)));
        assert_eq!(boolean(both().0.less_than(both().1)), Ok(Val::from(less)));
        assert_eq!(boolean(both().0.less_than_or_equal_to(both().1)), Ok(Val::from(less_equal)));
        let (l, r) = (PgExpression::from(l), PgExpression::from(r));
        assert_eq!(l.clone().greater_than(r.clone()).map(boolean), Ok(Ok(Val::from(!less_equal))));
        assert_eq!(l.greater_than_or_equal_to(r).map(boolean), Ok(Ok(Val::from(!less))));
    }
    for (l, r) in [(false, false), (false, true), (true, false), (true, true)] {
        let both = || (BooleanExpr::from(l), BooleanExpr::from(r));
        assert_eq!(boolean(both().0 & both().1), Ok(Val::from(l & r)));
        assert_eq!(boolean(both().0 | both().1), Ok(Val::from(l | r)));
        assert_eq!(boolean(both().0.equal_to(both().1)), Ok(Val::from(l == r)));
        assert_eq!(boolean(!both().0), Ok(Val::from(!l)));
    }
}

/// A draw takes the lowest bit of the word, and each later one the next.
#[test]
fn draws() -> Result<(), PgError> {
    let mut pg = ProgramGraphBuilder::new();
    let here = pg.new_initial_location()?;
    let send = pg.new_send(vec![BooleanExpr::Draw.into(); 3])?;
    pg.add_transition(here, send, here, None)?;
    let pg = pg.build()?;
    let bits = |word: u64| pg.new_instance().send(send, &[here], &mut || word);
    assert_eq!(bits(0b011), Ok([true, true, false].map(Val::from).to_vec()));
    assert_eq!(bits(0b100), Ok([false, false, true].map(Val::from).to_vec()));
    Ok(())
}

/// Threads may share a system, each with a run of its own.
#[test]
fn threads() -> Result<(), CsError> {
    let mut cs = ChannelSystemBuilder::new();
    let pg = cs.new_program_graph()?;
    let here = cs.new_initial_location(pg)?;
    let channel = cs.new_channel(vec![Type::Integer], Some(64))?;
    let send = cs.new_send(pg, channel, vec![CsExpression::from(5)])?;
    cs.add_transition(pg, here, send, here, None)?;
    let cs = cs.build()?;
    std::thread::scope(|scope| {
        let talk = || {
            let mut run = cs.new_instance();
            let sent = (0..64).filter(|_| run.transition(pg, send, &[here]).is_ok()).count();
            (sent, run.transition(pg, send, &[here]))
        };
        let talks: Vec<_> = (0..4).map(|_| scope.spawn(talk)).collect();
        for talk in talks {
            assert_eq!(talk.join().expect("a talk ends"), (64, Err(CsError::OutOfCapacity(channel))));
        }
    });
    Ok(())
}

#[test]
fn names_of_numbers() {
    for number in 1..=32 {
        assert_eq!(refusal_name(number), Some(rule(number)), "{number}");
    }
    for number in [0, 33, 200] {
        assert_eq!(refusal_name(number), None, "{number}");
    }
}
