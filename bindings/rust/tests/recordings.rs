//! Recordings: what a recorder writes replays; a spoilt byte and another answer are found where they are, and nothing has moved then.

use njunnemar::channel_system::{Action, ChannelSystem, ChannelSystemBuilder, CsError, CsExpression, Location, PgId};
use njunnemar::recording::{BLOCK, Call, Fault, RECORDS, Record, Recorder, ReplayError, fault, record_at};
use njunnemar::{BooleanExpr, IntegerExpr, Rng, SplitMix, TimeRange, Type, Val};
use std::io::{self, Write};

/// A system whose steps are often refused, and what may be tried on it.
struct Tried {
    system: ChannelSystem,
    steps: Vec<(PgId, Action, Vec<Location>)>,
}

fn tried() -> Result<Tried, CsError> {
    let mut b = ChannelSystemBuilder::new();
    let channel = b.new_channel(vec![Type::Integer, Type::Boolean], Some(6))?;
    let (sender, receiver) = (b.new_program_graph()?, b.new_program_graph()?);
    let (n, flag, clock) = (b.new_var(sender, Val::from(0))?, b.new_var(sender, Val::from(false))?, b.new_clock(sender)?);
    let at = b.new_initial_timed_location(sender, vec![(clock, TimeRange::new(..=9))])?;
    let count = b.new_action(sender)?;
    b.add_reset(sender, count, clock)?;
    b.add_effect(sender, count, n, (IntegerExpr::from(n) + 1.into()).into())?;
    b.add_effect(sender, count, flag, CsExpression::from(BooleanExpr::Draw))?;
    let send = b.new_send(sender, channel, vec![IntegerExpr::from(n).into(), BooleanExpr::from(flag).into()])?;
    b.add_timed_transition(sender, at, count, at, None, vec![(clock, TimeRange::new(2..))])?;
    b.add_transition(sender, at, send, at, Some(flag.into()))?;

    let (m, taken) = (b.new_var(receiver, Val::from(0))?, b.new_var(receiver, Val::from(false))?);
    let (left, right) = (b.new_initial_location(receiver)?, b.new_initial_location(receiver)?);
    let receive = b.new_receive(receiver, channel, vec![m, taken])?;
    for (pre, post) in [(left, left), (left, right), (right, left), (right, right)] {
        b.add_transition(receiver, pre, receive, post, None)?;
    }
    let auto = Action::epsilon(receiver);
    b.add_autonomous_transition(receiver, left, right, Some(taken.into()))?;
    b.add_autonomous_transition(receiver, right, right, None)?;
    let steps = vec![
        (sender, count, vec![at]),
        (sender, send, vec![at]),
        (sender, count, vec![]),
        (receiver, receive, vec![left, right]),
        (receiver, receive, vec![right, right]),
        (receiver, auto, vec![right, right]),
        (receiver, auto, vec![left]),
    ];
    Ok(Tried { system: b.build()?, steps })
}

/// So many random calls, recorded: the bytes, and the run as they left it.
fn recorded(tried: &Tried, calls: usize, seed: u64) -> io::Result<(njunnemar::channel_system::ChannelSystemRun<'_>, Vec<u8>)> {
    let mut chance = SplitMix::new(seed);
    let mut live = tried.system.new_instance().record(Recorder::new(vec![]));
    for _ in 0..calls {
        let (pick, word) = (chance.next_word() as usize, chance.next_word());
        match tried.steps.get(pick % (tried.steps.len() + 2)) {
            Some((pg_id, action, post)) => drop(live.transition_with(*pg_id, *action, post, word)),
            None => drop(live.wait(pick as u32 / 16 % 6)),
        }
    }
    live.finish()
}

/// Writes the sum of a block anew.
fn sum_anew(block: &mut [u8]) {
    let sum: u32 = block[..508].iter().zip(1..).map(|(byte, place)| u32::from(*byte) * place).sum();
    block[508..512].copy_from_slice(&sum.to_le_bytes());
}

#[test]
fn what_is_recorded_replays() -> Result<(), Box<dyn std::error::Error>> {
    let tried = tried()?;
    for calls in [0, 1, 14, 15, 16, 30, 31, 100, 1000] {
        let (run, bytes) = recorded(&tried, calls, calls as u64)?;
        assert_eq!(bytes.len(), calls.div_ceil(RECORDS) * BLOCK);
        let mut again = tried.system.new_instance();
        assert_eq!(again.replay(&bytes), Ok(calls as u64));
        assert!(again == run, "{calls} calls");
        let records: Vec<Record> = (0..calls as u64).map(|i| record_at(&bytes, i / 15, i % 15).expect("a record")).collect();
        let refused = records.iter().filter(|record| record.answer != 0).count();
        assert!(calls < 100 || (refused > calls / 10 && refused < calls), "{refused} of {calls} are refused");
        assert_eq!(record_at(&bytes, calls as u64 / 15, calls as u64 % 15), None);

        // By calls, one by one.
        let mut stepped = tried.system.new_instance();
        for record in records {
            let answer = match record.call {
                Call::Step { pg_id, action, post, word } => stepped.transition_with(pg_id, action, &post, word).map(drop),
                Call::Wait { delta } => stepped.wait(delta),
            };
            assert_eq!(answer.map_or_else(|refusal| refusal.number(), |()| 0), u32::from(record.answer));
        }
        assert!(stepped == run, "{calls} calls");
    }
    Ok(())
}

/// A run with its own draws replays too: the words are recorded.
#[test]
fn own_draws() -> Result<(), Box<dyn std::error::Error>> {
    let tried = tried()?;
    let (sender, count, at) = &tried.steps[0];
    let mut live = tried.system.new_seeded_instance(5).record(Recorder::new(vec![]));
    for _ in 0..40 {
        live.wait(2)?;
        live.transition(*sender, *count, at)?;
    }
    let (run, bytes) = live.finish()?;
    let mut again = tried.system.new_instance();
    assert_eq!(again.replay(&bytes), Ok(80));
    assert_eq!(again.time(), 80);
    let held = |run: &njunnemar::channel_system::ChannelSystemRun<'_>| format!("{:?}", run.program_graph(*sender));
    assert_eq!(held(&again), held(&run));
    Ok(())
}

#[test]
fn a_spoilt_byte_is_refused_at_its_block() -> Result<(), Box<dyn std::error::Error>> {
    let tried = tried()?;
    let (_, bytes) = recorded(&tried, 40, 3)?;
    let start = tried.system.new_instance();
    for block in 0..3 {
        for byte in 0..BLOCK {
            let mut spoilt = bytes.clone();
            spoilt[block * BLOCK + byte] ^= 1 << (byte % 8);
            let mut run = start.clone();
            assert_eq!(run.replay(&spoilt), Err(ReplayError::BadBlock { block: block as u64 }), "byte {byte} of block {block}");
            assert!(run == start);
            assert!(matches!(fault(&spoilt, block as u64), Some(Fault::Sum { .. })));
        }
    }
    // Cut anywhere but between blocks, the last one is refused; cut there, the recording ends earlier.
    for length in 0..bytes.len() {
        let mut run = start.clone();
        let answer = run.replay(&bytes[..length]);
        if length % BLOCK == 0 {
            assert_eq!(answer, Ok((length / BLOCK * RECORDS) as u64));
        } else {
            assert_eq!(answer, Err(ReplayError::BadBlock { block: (length / BLOCK) as u64 }));
            assert!(run == start);
            assert_eq!(fault(&bytes, 2), None);
            assert_eq!(fault(&bytes[..length], (length / BLOCK) as u64), Some(Fault::Short(length % BLOCK)));
        }
    }
    Ok(())
}

/// With a right sum every other rule of a block is asked for.
#[test]
fn a_wrong_block_with_a_right_sum() -> Result<(), Box<dyn std::error::Error>> {
    let tried = tried()?;
    let (_, bytes) = recorded(&tried, 40, 4)?;
    let start = tried.system.new_instance();
    // Block 2 is the last, with 10 records.
    let wrong = [
        (1, 0, 7, Fault::Number(7), "it says that it is block 7"),
        (1, 3, 1, Fault::Number(16_777_217), "it says that it is block 16777217"),
        (1, 4, 16, Fault::Count(16), "it says that it has 16 records, and there is room for 15"),
        (1, 4, 14, Fault::Count(14), "it has 14 records, and only the last block may have less than 15"),
        (2, 5, 1, Fault::Head(5), "its byte 5 has to be 0"),
        (2, 27, 1, Fault::Head(27), "its byte 27 has to be 0"),
        (2, 28, 3, Fault::Record(0), "its record 0 is none"),
        (2, 28 + 32 * 9 + 3, 1, Fault::Record(9), "its record 9 is none"),
        (2, 28 + 32 * 9 + 31, 1, Fault::Record(9), "its record 9 is none"),
        (2, 28 + 32 * 10, 1, Fault::Unused(10), "it has no record 10, and its bytes there have to be 0"),
        (2, 4, 9, Fault::Unused(9), "it has no record 9, and its bytes there have to be 0"),
        (2, 4, 11, Fault::Record(10), "its record 10 is none"),
    ];
    for (block, byte, value, found, text) in wrong {
        let mut spoilt = bytes.clone();
        spoilt[block * BLOCK + byte] = value;
        sum_anew(&mut spoilt[block * BLOCK..][..BLOCK]);
        let (mut run, block) = (start.clone(), block as u64);
        assert_eq!(run.replay(&spoilt), Err(ReplayError::BadBlock { block }), "{text}");
        assert!(run == start);
        assert_eq!(fault(&spoilt, block), Some(found));
        assert_eq!(found.to_string(), text);
    }
    assert_eq!(ReplayError::BadBlock { block: 2 }.to_string(), "block 2 is not well formed");
    Ok(())
}

#[test]
fn another_answer_is_found() -> Result<(), Box<dyn std::error::Error>> {
    let tried = tried()?;
    let (_, bytes) = recorded(&tried, 40, 3)?;
    let start = tried.system.new_instance();
    for i in 0..40 {
        let (block, record) = (i / 15, i % 15);
        let mut other = bytes.clone();
        let answer = &mut other[BLOCK * block + 28 + 32 * record + 24];
        let given = u32::from(*answer);
        let recorded = if given == 0 { 8 } else { 0 };
        *answer = recorded;
        sum_anew(&mut other[BLOCK * block..][..BLOCK]);
        let (block, record, recorded) = (block as u64, record as u64, u32::from(recorded));
        let found = ReplayError::Differs { block, record, recorded, given };
        let mut run = start.clone();
        assert_eq!(run.replay(&other), Err(found));
        assert!(run == start);

        // The run just before it: the record's call answers there what was given.
        run.replay_before(&other, block, record)?;
        let answer = match record_at(&other, block, record).expect("a record").call {
            Call::Step { pg_id, action, post, word } => run.transition_with(pg_id, action, &post, word).map(drop),
            Call::Wait { delta } => run.wait(delta),
        };
        assert_eq!(answer.map_or_else(|refusal| refusal.number(), |()| 0), given);
    }
    let found = ReplayError::Differs { block: 1, record: 2, recorded: 0, given: 8 };
    assert_eq!(found.to_string(), "record 2 of block 1 was recorded as ok, here it is refused 8, UnsatisfiedGuard");
    Ok(())
}

/// A call that a record has no room for is made, refused, and left out.
#[test]
fn no_room_in_a_record() -> Result<(), Box<dyn std::error::Error>> {
    let tried = tried()?;
    let (sender, count, at) = &tried.steps[0];
    let (receiver, receive, _) = &tried.steps[3];
    let mut live = tried.system.new_instance().record(Recorder::new(vec![]));
    live.wait(2)?;
    assert_eq!(live.transition(*sender, *receive, at).map_err(|refusal| refusal.number()), Err(18));
    assert_eq!(live.transition(*receiver, *receive, &[at[0], at[0]]).map_err(|refusal| refusal.number()), Err(19));
    assert_eq!(live.transition(*sender, *count, &[at[0]; 5]).map_err(|refusal| refusal.number()), Err(7));
    live.transition(*sender, *count, at)?;
    assert_eq!(live.run().time(), 2);
    let (_, bytes) = live.finish()?;
    assert_eq!(tried.system.new_instance().replay(&bytes), Ok(2));
    Ok(())
}

/// A writer that takes so many blocks.
struct Full(usize);

impl Write for Full {
    fn write(&mut self, bytes: &[u8]) -> io::Result<usize> {
        self.0 = self.0.checked_sub(1).ok_or_else(|| io::Error::other("full"))?;
        Ok(bytes.len())
    }

    fn flush(&mut self) -> io::Result<()> {
        Ok(())
    }
}

#[test]
fn a_writer_that_fails() -> Result<(), CsError> {
    let tried = tried()?;
    for (blocks, calls, well) in [(0, 0, true), (0, 1, false), (1, 15, true), (1, 16, false), (2, 100, false)] {
        let mut live = tried.system.new_instance().record(Recorder::new(Full(blocks)));
        for _ in 0..calls {
            live.wait(0)?;
        }
        assert_eq!(live.finish().is_ok(), well, "{blocks} blocks, {calls} calls");
    }
    Ok(())
}
