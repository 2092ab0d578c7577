//! Why a plain step was refused with 8: every sort of cause, in words, with numbers and with names.

use njunnemar::channel_system::{Action, ChannelSystemBuilder, Clock, CsError, CsGuard, Fails, Limit, Location, PgId, Var};
use njunnemar::{BooleanExpr, IntegerExpr, Names, Rng, SplitMix, TimeRange, Type, Val};
use std::ops::{Bound, RangeBounds};

/// A graph with two processes, to which a test adds a transition.
struct Small {
    builder: ChannelSystemBuilder,
    pg_id: PgId,
    at: Location,
    to: Location,
    action: Action,
    clock: Clock,
    n: Var,
    open: Var,
}

impl Small {
    fn new(invariants: Vec<TimeRange>) -> Result<Self, CsError> {
        let mut builder = ChannelSystemBuilder::new();
        // Numbers of another graph stand before, so that a mix-up shows.
        let other = builder.new_program_graph()?;
        builder.new_initial_location(other)?;
        builder.new_clock(other)?;
        let pg_id = builder.new_program_graph()?;
        let (n, open) = (builder.new_var(pg_id, Val::from(0))?, builder.new_var(pg_id, Val::from(true))?);
        let clock = builder.new_clock(pg_id)?;
        let at = builder.new_initial_location(pg_id)?;
        let to = builder.new_timed_location(pg_id, invariants.into_iter().map(|range| (clock, range)).collect())?;
        builder.new_process(pg_id, to)?;
        let action = builder.new_action(pg_id)?;
        // Process 1 may always go.
        builder.add_transition(pg_id, to, action, at, None)?;
        Ok(Small { builder, pg_id, at, to, action, clock, n, open })
    }

    /// The cause of the 8 after a wait of 2, by numbers and by names.
    fn told(self) -> Result<(Fails, String, String), CsError> {
        let Small { builder, pg_id, at, to, action, clock, n, open } = self;
        let mut names = Names::new();
        names.clock(clock, "since asked");
        names.var(n, "tries");
        names.var(open, "open");
        names.location(to, "late");
        let system = builder.build()?;
        let mut run = system.new_instance();
        run.wait(2)?;
        let before = run.clone();
        let post = [to, at];
        let cause = run.why(pg_id, action, &post)?.expect("a cause");
        assert!(run == before);
        assert_eq!(run.transition(pg_id, action, &post).unwrap_err().number(), 8);
        assert_eq!((cause.pg_id, cause.process), (pg_id, 0));
        assert_eq!(cause.transition.is_none(), cause.fails == Fails::NoCandidate);
        Ok((cause.fails.clone(), cause.to_string(), names.of_cause(&cause)))
    }

    fn guarded(mut self, guard: CsGuard) -> Result<(Fails, String, String), CsError> {
        self.builder.add_transition(self.pg_id, self.at, self.action, self.to, Some(guard))?;
        self.told()
    }

    fn limited(mut self, limits: Vec<TimeRange>) -> Result<(Fails, String, String), CsError> {
        let limits = limits.into_iter().map(|range| (self.clock, range)).collect();
        self.builder.add_timed_transition(self.pg_id, self.at, self.action, self.to, None, limits)?;
        self.told()
    }
}

#[test]
fn no_candidate() -> Result<(), CsError> {
    let (fails, numbers, names) = Small::new(vec![])?.told()?;
    assert_eq!(fails, Fails::NoCandidate);
    assert_eq!((numbers.as_str(), names.as_str()), ("process 0: no candidate", "process 0: no candidate"));
    Ok(())
}

#[test]
fn a_guard() -> Result<(), CsError> {
    let small = Small::new(vec![])?;
    let guard = !BooleanExpr::from(small.open);
    let (fails, numbers, names) = small.guarded(guard.clone())?;
    assert!(matches!(fails, Fails::Guard { guard: found, value: Some(Val::Boolean(false)), .. } if found == guard));
    assert_eq!(numbers, "process 0: guard not v1 is false: v1 is true");
    assert_eq!(names, "process 0: guard not open is false: open is true");

    let small = Small::new(vec![])?;
    let (n, open) = (small.n, small.open);
    let guard = BooleanExpr::from(open) & IntegerExpr::from(0).less_than(n.into()) & IntegerExpr::from(n).less_than(9.into());
    let (_, numbers, names) = small.guarded(guard)?;
    assert_eq!(numbers, "process 0: guard v1 and 0 < v0 and v0 < 9 is false: v1 is true, v0 is 0");
    assert_eq!(names, "process 0: guard open and 0 < tries and tries < 9 is false: open is true, tries is 0");

    let small = Small::new(vec![])?;
    let guard = IntegerExpr::from(3).less_than(IntegerExpr::from(100) / small.n.into());
    let (fails, _, names) = small.guarded(guard)?;
    assert!(matches!(fails, Fails::Guard { value: None, .. }));
    assert_eq!(names, "process 0: guard 3 < 100 / tries has no value: tries is 0");

    let (_, numbers, _) = Small::new(vec![])?.guarded(false.into())?;
    assert_eq!(numbers, "process 0: guard false is false");
    Ok(())
}

/// A guard with every operation comes back from its items as it was.
#[test]
fn every_item_reads_back() -> Result<(), CsError> {
    let small = Small::new(vec![])?;
    let (n, open) = (|| IntegerExpr::from(small.n), || BooleanExpr::from(small.open));
    let sums = (n() + 2.into() - IntegerExpr::from(5) * -n()).equal_to(IntegerExpr::from(7) / 2.into() % 3.into());
    let guard = (sums | !open()) & n().less_than_or_equal_to((-4).into()).equal_to(false.into())
        | IntegerExpr::from(3).less_than(n()) & true.into();
    let (fails, _, names) = small.guarded(guard.clone())?;
    assert!(matches!(&fails, Fails::Guard { guard: found, .. } if *found == guard), "{fails:?}");
    let text = "(tries + 2 - 5 * -tries = 7 / 2 % 3 or not open) and (tries <= -4) = false or 3 < tries and true";
    assert_eq!(names, format!("process 0: guard {text} is false: tries is 0, open is true"));
    Ok(())
}

#[test]
fn a_limit() -> Result<(), CsError> {
    let excluded = |from, to| TimeRange::new((from, to));
    let limits = [
        (TimeRange::new(3..), "c0 >= 3"),
        (TimeRange::new(..2), "c0 < 2"),
        (TimeRange::new(..=1), "c0 <= 1"),
        (TimeRange::new(3..=5), "3 <= c0 <= 5"),
        (excluded(Bound::Excluded(2), Bound::Unbounded), "c0 > 2"),
        (excluded(Bound::Excluded(2), Bound::Excluded(7)), "2 < c0 < 7"),
        (TimeRange::new(u32::MAX..), "c0 >= 4294967295"),
    ];
    for (range, text) in limits {
        let (fails, numbers, names) = Small::new(vec![])?.limited(vec![TimeRange::new(..), TimeRange::new(2..), range])?;
        assert!(matches!(fails, Fails::Limit(limit) if (limit.number, limit.range, limit.reads) == (2, range, 2)), "{fails:?}");
        assert_eq!(numbers, format!("process 0: limit {text}, c0 is 2"));
        assert_eq!(names, format!("process 0: limit {}, since asked is 2", text.replace("c0", "since asked")));
    }
    Ok(())
}

#[test]
fn an_invariant() -> Result<(), CsError> {
    // Process 1 starts there, so the invariants hold until 2.
    let mut builder = ChannelSystemBuilder::new();
    let pg_id = builder.new_program_graph()?;
    let (c, d) = (builder.new_clock(pg_id)?, builder.new_clock(pg_id)?);
    let at = builder.new_initial_location(pg_id)?;
    let early = builder.new_timed_location(pg_id, vec![(c, TimeRange::new(..=9)), (d, TimeRange::new(..=1))])?;
    let late = builder.new_timed_location(pg_id, vec![(d, TimeRange::new(1..))])?;
    let (plain, reset) = (builder.new_action(pg_id)?, builder.new_action(pg_id)?);
    builder.add_reset(pg_id, reset, d)?;
    for action in [plain, reset] {
        builder.add_transition(pg_id, at, action, early, None)?;
        builder.add_transition(pg_id, at, action, late, None)?;
    }
    let mut names = Names::new();
    names.clock(d, "since asked");
    names.location(early, "early");
    let system = builder.build()?;
    let mut run = system.new_instance();
    run.wait(2)?;
    let cause = run.why(pg_id, plain, &[early])?.expect("a cause");
    assert!(matches!(&cause.fails, Fails::Invariant { limit, reset: false, .. } if limit.number == 1));
    assert_eq!(cause.to_string(), "process 0: invariant c1 <= 1 of L1, c1 is 2");
    assert_eq!(names.of_cause(&cause), "process 0: invariant since asked <= 1 of early, since asked is 2");
    let cause = run.why(pg_id, reset, &[late])?.expect("a cause");
    assert!(matches!(&cause.fails, Fails::Invariant { reset: true, .. }));
    assert_eq!(cause.to_string(), "process 0: invariant c1 >= 1 of L2, c1 is set back to 0");
    assert_eq!(run.why(pg_id, reset, &[early]), Ok(None));
    assert_eq!(run.why(pg_id, plain, &[late]), Ok(None));
    Ok(())
}

/// The lowest process without a passing candidate is named, and of several candidates the first.
#[test]
fn which_process_and_which_candidate() -> Result<(), CsError> {
    let mut builder = ChannelSystemBuilder::new();
    let pg_id = builder.new_program_graph()?;
    let clock = builder.new_clock(pg_id)?;
    let (one, two) = (builder.new_initial_location(pg_id)?, builder.new_initial_location(pg_id)?);
    let action = builder.new_action(pg_id)?;
    builder.add_timed_transition(pg_id, one, action, one, None, vec![(clock, TimeRange::new(7..))])?;
    builder.add_transition(pg_id, one, action, one, None)?;
    builder.add_timed_transition(pg_id, two, action, two, None, vec![(clock, TimeRange::new(3..))])?;
    builder.add_transition(pg_id, two, action, two, Some(false.into()))?;
    let system = builder.build()?;
    let mut run = system.new_instance();
    run.wait(2)?;
    let cause = run.why(pg_id, action, &[one, two])?.expect("a cause");
    assert_eq!((cause.process, cause.transition), (1, Some(2)));
    assert_eq!(cause.to_string(), "process 1: limit c0 >= 3, c0 is 2");
    run.wait(1)?;
    assert_eq!(run.why(pg_id, action, &[one, two]), Ok(None));
    Ok(())
}

/// Where there is no 8, `why` answers what the step answers; of a communication it is 13.
#[test]
fn other_answers() -> Result<(), CsError> {
    let mut builder = ChannelSystemBuilder::new();
    let channel = builder.new_channel(vec![Type::Integer], Some(1))?;
    let (pg_id, other) = (builder.new_program_graph()?, builder.new_program_graph()?);
    let n = builder.new_var(pg_id, Val::from(0))?;
    let (at, elsewhere) = (builder.new_initial_location(pg_id)?, builder.new_initial_location(other)?);
    let (divide, foreign) = (builder.new_action(pg_id)?, builder.new_action(other)?);
    builder.add_effect(pg_id, divide, n, (IntegerExpr::from(1) / n.into()).into())?;
    let receive = builder.new_receive(pg_id, channel, vec![n])?;
    builder.add_transition(pg_id, at, divide, at, None)?;
    builder.add_transition(pg_id, at, receive, at, Some(false.into()))?;
    let system = builder.build()?;
    let run = system.new_instance();
    let number = |action, post: &[Location]| run.why(pg_id, action, post).map_err(|refusal| refusal.number());
    assert_eq!(number(divide, &[at]), Err(26));
    assert_eq!(number(foreign, &[at]), Err(18));
    assert_eq!(number(divide, &[elsewhere]), Err(19));
    assert_eq!(number(divide, &[]), Err(7));
    assert_eq!(number(receive, &[at]), Err(13));
    let mut larger = ChannelSystemBuilder::new();
    let graphs: Vec<PgId> = (0..3).map(|_| larger.new_program_graph()).collect::<Result<_, _>>()?;
    assert_eq!(run.why(graphs[2], divide, &[at]), Err(CsError::MissingPg(graphs[2])));
    Ok(())
}

/// A transition that a random graph has: where from and where to, its guard, its limits.
struct Added {
    pre: usize,
    post: usize,
    guard: Option<(i32, bool)>,
    limits: Vec<(usize, TimeRange)>,
}

/// The first limit that the clocks do not meet, in the order of the clocks: its number, its clock and its range.
fn unmet(limits: &[(usize, TimeRange)], clocks: [u32; 2]) -> Option<(u32, usize, TimeRange)> {
    let mut stored = limits.to_vec();
    stored.sort_by_key(|(clock, _)| *clock);
    let found = stored.iter().zip(0..).find(|((clock, range), _)| !range.contains(&clocks[*clock]));
    found.map(|((clock, range), number)| (number, *clock, *range))
}

/// Random graphs, and a second reading of the rules in this test: the same answer, and of an 8 the same cause.
#[test]
fn the_cause_is_the_real_one() -> Result<(), CsError> {
    let mut seen = [0; 6];
    for seed in 0..150 {
        let mut word = SplitMix::new(seed);
        let mut below = |n: u64| word.next_word() % n;
        let range = |below: &mut dyn FnMut(u64) -> u64| {
            let mut bound = || [Bound::Unbounded, Bound::Included(below(6) as u32), Bound::Excluded(below(6) as u32)][below(3) as usize];
            TimeRange::new((bound(), bound()))
        };
        let mut b = ChannelSystemBuilder::new();
        let pg_id = b.new_program_graph()?;
        let n_is = below(3) as i32;
        let n = b.new_var(pg_id, Val::from(n_is))?;
        let clocks = [b.new_clock(pg_id)?, b.new_clock(pg_id)?];
        let with_clocks = |limits: &[(usize, TimeRange)]| limits.iter().map(|(clock, range)| (clocks[*clock], *range)).collect::<Vec<_>>();
        let limits = |below: &mut dyn FnMut(u64) -> u64| (0..below(3)).map(|_| (below(2) as usize, range(below))).collect::<Vec<_>>();
        let mut places = vec![b.new_location(pg_id)?, b.new_location(pg_id)?];
        let mut invariants = vec![vec![], vec![]];
        for _ in 0..2 {
            invariants.push(limits(&mut below));
            places.push(b.new_timed_location(pg_id, with_clocks(&invariants[invariants.len() - 1]))?);
        }
        let starts: Vec<usize> = (0..1 + below(3)).map(|_| below(2) as usize).collect();
        for start in &starts {
            b.new_process(pg_id, places[*start])?;
        }
        let (tick, go) = (b.new_action(pg_id)?, b.new_action(pg_id)?);
        b.add_reset(pg_id, tick, clocks[1])?;
        for place in &places[..2] {
            b.add_transition(pg_id, *place, tick, *place, None)?;
        }
        let reset = (below(2) == 0).then(|| below(2) as usize);
        if let Some(clock) = reset {
            b.add_reset(pg_id, go, clocks[clock])?;
        }
        let mut added = vec![];
        for _ in 0..4 + below(8) {
            let guard = (below(2) == 0).then(|| (below(3) as i32, below(2) == 0));
            let transition = Added { pre: below(2) as usize, post: 2 + below(2) as usize, guard, limits: limits(&mut below) };
            // At most so much, or at most as often as the variable divides it.
            let tree = guard.map(|(most, divided)| {
                let least = if divided { IntegerExpr::from(2) / n.into() } else { n.into() };
                least.less_than_or_equal_to(most.into())
            });
            b.add_timed_transition(pg_id, places[transition.pre], go, places[transition.post], tree, with_clocks(&transition.limits))?;
            added.push(transition);
        }
        let system = b.build()?;
        let mut run = system.new_instance();
        let (first, second) = (below(4) as u32, below(4) as u32);
        run.wait(first)?;
        let stay: Vec<Location> = starts.iter().map(|start| places[*start]).collect();
        run.transition(pg_id, tick, &stay)?;
        run.wait(second)?;
        let now = [first + second, second];
        let mut then = now;
        if let Some(clock) = reset {
            then[clock] = 0;
        }

        let value = |(most, divided): (i32, bool)| {
            let least = if divided { 2_i32.checked_div(n_is) } else { Some(n_is) };
            least.map(|least| least <= most)
        };
        let passes = |t: &Added| {
            t.guard.is_none_or(|guard| value(guard) == Some(true))
                && unmet(&t.limits, now).is_none()
                && unmet(&invariants[t.post], then).is_none()
        };
        for _ in 0..8 {
            let posts: Vec<usize> = starts.iter().map(|_| 2 + below(2) as usize).collect();
            let post: Vec<Location> = posts.iter().map(|post| places[*post]).collect();
            let candidates = |p: usize| added.iter().filter(|t| (t.pre, t.post) == (starts[p], posts[p])).collect::<Vec<_>>();
            let lowest = (0..starts.len()).find(|p| !candidates(*p).into_iter().any(passes));
            let cause = run.why(pg_id, go, &post)?;
            let answer = run.clone().transition(pg_id, go, &post).map_err(|refusal| refusal.number());
            let Some(lowest) = lowest else {
                assert_eq!((cause, answer), (None, Ok(None)));
                seen[5] += 1;
                continue;
            };
            let cause = cause.expect("a cause");
            assert_eq!((cause.process as usize, answer), (lowest, Err(8)));
            let Some(candidate) = candidates(lowest).first().copied() else {
                assert_eq!((cause.transition, cause.fails), (None, Fails::NoCandidate));
                seen[0] += 1;
                continue;
            };
            // In stored order: by where from, action and where to; equal ones as they were added. Each of the two first has a tick before.
            let before = |t: &&Added| (t.pre, t.post) < (candidate.pre, candidate.post);
            let stored = candidate.pre + 1 + added.iter().filter(before).count();
            assert_eq!(cause.transition, Some(stored as u32));
            let part = |limit: &Limit| (limit.number, limit.clock, limit.range, limit.reads);
            match (&cause.fails, candidate.guard.map(value)) {
                (Fails::Guard { value, held, .. }, Some(is)) if is != Some(true) => {
                    assert_eq!((*value, &held[..]), (is.map(Val::from), &[(n, Val::from(n_is))][..]));
                    seen[if is.is_none() { 1 } else { 2 }] += 1;
                }
                (Fails::Limit(limit), None | Some(Some(true))) => {
                    let (number, clock, range) = unmet(&candidate.limits, now).expect("a limit that fails");
                    assert_eq!(part(limit), (number, clocks[clock], range, now[clock]));
                    seen[3] += 1;
                }
                (Fails::Invariant { at, limit, reset: back }, None | Some(Some(true))) => {
                    assert_eq!(unmet(&candidate.limits, now), None);
                    let (number, clock, range) = unmet(&invariants[candidate.post], then).expect("an invariant that fails");
                    assert_eq!(part(limit), (number, clocks[clock], range, then[clock]));
                    assert_eq!((*at, *back), (places[candidate.post], reset == Some(clock)));
                    seen[4] += 1;
                }
                (fails, guard) => panic!("{fails:?}, and the guard is {guard:?}"),
            }
        }
    }
    assert!(seen.iter().all(|times| *times > 20), "{seen:?}");
    Ok(())
}

/// Brackets stand only where the text would else read as another tree.
#[test]
fn least_brackets() {
    let name = |var: &str| var.to_string();
    let int = |var| IntegerExpr::Var(var);
    let bool = |var| BooleanExpr::Var(var);
    let is = |guard: BooleanExpr<&'static str>, text: &str| assert_eq!(guard.written(&|var| name(var)), text);
    is(bool("a") & bool("b") & bool("c"), "a and b and c");
    is(bool("a") & (bool("b") | bool("c")), "a and (b or c)");
    is(bool("a") | bool("b") & bool("c"), "a or b and c");
    is(!(bool("a") & bool("b")), "not (a and b)");
    is(!bool("a") & bool("b"), "not a and b");
    is(!!bool("a"), "not (not a)");
    is(!int("m").equal_to(0.into()), "not (m = 0)");
    is((!bool("a")).equal_to(bool("b")), "(not a) = b");
    is(bool("a").equal_to(bool("b").equal_to(bool("c"))), "a = (b = c)");
    is(int("m").less_than(1.into()).equal_to(bool("a")), "(m < 1) = a");
    is((int("m") - int("n") - 1.into()).less_than(0.into()), "m - n - 1 < 0");
    is((int("m") - (int("n") - 1.into())).less_than(0.into()), "m - (n - 1) < 0");
    is(((int("m") + 1.into()) * int("n")).less_than_or_equal_to(9.into()), "(m + 1) * n <= 9");
    is((int("m") + int("n") * 2.into()).equal_to(9.into()), "m + n * 2 = 9");
    is((int("m") / (int("n") % 2.into())).equal_to(9.into()), "m / (n % 2) = 9");
    is((-(int("m") + 1.into())).equal_to((-3).into()), "-(m + 1) = -3");
    is((-(-int("m")) * (-3).into()).less_than(-IntegerExpr::from(-3)), "-(-m) * -3 < -(-3)");
}
