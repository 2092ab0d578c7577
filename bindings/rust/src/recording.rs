//! Recordings: what was seen, with what was answered, in blocks of 512 bytes; written beside a live run, and replayed.
//!
//! ```text
//! block    0  number, from 0      4  count of records, 0 to 15, less than 15 only in the last block      5  23 zeros
//!         28  15 records of 32 bytes      508  the sum of each byte times its place, counted from 1
//! record   0  kind: 1 step, 2 wait      1  graph      2  number of posts      3  zero      4  action or delta
//!          8  4 posts of 2 bytes      16  the word for draws      24  the answer, 0 for ok      25  7 zeros
//! ```
//!
//! Numbers are little-endian; what is not used is zero. docs/RULES.md has the rules of blocks and replays.
//!
//! ```
//! use njunnemar::channel_system::ChannelSystemBuilder;
//! use njunnemar::recording::Recorder;
//!
//! let mut cs_builder = ChannelSystemBuilder::new();
//! let pg_id = cs_builder.new_program_graph()?;
//! let initial = cs_builder.new_initial_location(pg_id)?;
//! let action = cs_builder.new_action(pg_id)?;
//! cs_builder.add_transition(pg_id, initial, action, initial, None)?;
//! let cs = cs_builder.build()?;
//!
//! // The run steps as ever, and what it answers is written down.
//! let mut live = cs.new_instance().record(Recorder::new(vec![]));
//! live.wait(3)?;
//! live.transition(pg_id, action, &[initial])?;
//! let (run, bytes) = live.finish()?;
//!
//! let mut again = cs.new_instance();
//! assert_eq!(again.replay(&bytes), Ok(2));
//! assert_eq!(again.time(), run.time());
//! # Ok::<(), Box<dyn std::error::Error>>(())
//! ```

use crate::{
    Time, archive,
    channel_system::{Action, ChannelSystemRun, CsError, Event, Location, PgId, refusal_name},
    program_graph::{Action as PgAction, Location as PgLocation},
};
use std::{
    error::Error,
    fmt,
    io::{self, Write},
};

/// The bytes of a block.
pub const BLOCK: usize = 512;
/// The most records that a block has.
pub const RECORDS: usize = 15;

const COUNT: usize = 4;
const HEAD: usize = 28;
const RECORD: usize = 32;
const SUMMED: usize = 508;
const POSTS: usize = 4;

/// A call that was seen.
#[derive(Debug, Clone, PartialEq, Eq)]
pub enum Call {
    /// A step.
    Step {
        /// The graph.
        pg_id: PgId,
        /// The action, of this graph.
        action: Action,
        /// The post-locations, of this graph; at most 4.
        post: Vec<Location>,
        /// The word for draws.
        word: u64,
    },
    /// A wait.
    Wait {
        /// For so long.
        delta: Time,
    },
}

/// A call and its answer: 0, or the number of the refusal.
#[derive(Debug, Clone, PartialEq, Eq)]
pub struct Record {
    /// The call.
    pub call: Call,
    /// The answer.
    pub answer: u8,
}

impl Record {
    /// Writes this record into a block, as its record i, and says whether a record has room for the call: it has none for a part of another graph,
    /// more than 4 posts, a graph past 255 or a location past 65535. Such a call is refused by every system.
    fn put(&self, block: &mut [u8; BLOCK], i: usize) -> bool {
        match &self.call {
            Call::Step { pg_id, action, post, word } => {
                if action.0 != *pg_id || post.iter().any(|post| post.0 != *pg_id) {
                    return false;
                }
                let posts: Result<Vec<u16>, _> = post.iter().map(|post| post.1.0.try_into()).collect();
                let (Ok(pg_id), Ok(posts)) = (pg_id.0.try_into(), posts) else { return false };
                archive::put_step(block, i, pg_id, action.1.0, &posts, *word, self.answer).is_ok()
            }
            Call::Wait { delta } => archive::put_wait(block, i, *delta, self.answer).is_ok(),
        }
    }

    /// The record of these bytes, if they are one.
    fn of(bytes: &[u8; RECORD]) -> Option<Self> {
        let number = |from: usize, to: usize| bytes[from..to].iter().rev().fold(0, |n, byte| n << 8 | u64::from(*byte));
        let call = match bytes[0] {
            1 => {
                let (pg_id, count) = (PgId(bytes[1].into()), usize::from(bytes[2]).min(POSTS));
                let post = |i: usize| Location(pg_id, PgLocation(number(8 + 2 * i, 10 + 2 * i) as u32));
                let action = Action(pg_id, PgAction(number(4, 8) as u32));
                Call::Step { pg_id, action, post: (0..count).map(post).collect(), word: number(16, 24) }
            }
            _ => Call::Wait { delta: number(4, 8) as Time },
        };
        let record = Record { call, answer: bytes[24] };
        // What was not read has to be as it is written.
        let mut block = [0; BLOCK];
        (record.put(&mut block, 0) && &block[HEAD..HEAD + RECORD] == bytes).then_some(record)
    }
}

/// The sum of a block: each byte times its place, counted from 1.
fn sum(block: &[u8]) -> u32 {
    block[..SUMMED].iter().zip(1..).map(|(byte, place)| u32::from(*byte) * place).sum()
}

/// Writes a recording, a block whenever it is full. The archive writes the blocks: that each reads back as its records, and as no others, is proved.
///
/// What the writer answers does not disturb the run that is recorded: its first error is kept, nothing more is written, and
/// [`finish`](Recorder::finish) answers it. A recorder that is dropped before has not written its last block.
#[derive(Debug)]
pub struct Recorder<W> {
    to: W,
    number: u32,
    block: [u8; BLOCK],
    count: usize,
    failed: Option<io::Error>,
}

impl<W: Write> Recorder<W> {
    /// A recorder that writes here.
    pub fn new(to: W) -> Self {
        Recorder { to, number: 0, block: [0; BLOCK], count: 0, failed: None }
    }

    /// Adds a record, and says whether there is room in one for its call. Where there is none the call was refused and moved nothing, so
    /// the recording holds without it.
    pub fn add(&mut self, record: &Record) -> bool {
        if self.count == RECORDS {
            self.put();
        }
        let has_room = record.put(&mut self.block, self.count);
        self.count += usize::from(has_room);
        has_room
    }

    /// Writes the block.
    fn put(&mut self) {
        let sealed = archive::seal(&mut self.block, self.number, self.count);
        debug_assert!(sealed.is_ok(), "a block has no more records than there is room for");
        self.count = 0;
        if self.failed.is_none() {
            let numbered = self.number.checked_add(1).ok_or_else(|| io::Error::other("a recording has no more blocks than 2^32"));
            match self.to.write_all(&self.block).and(numbered) {
                Ok(next) => self.number = next,
                Err(error) => self.failed = Some(error),
            }
        }
    }

    /// Writes what is left, and gives the writer back.
    pub fn finish(mut self) -> io::Result<W> {
        if self.count > 0 {
            self.put();
        }
        self.failed.map_or(Ok(()), Err)?;
        self.to.flush()?;
        Ok(self.to)
    }
}

/// A live run beside its recorder.
#[derive(Debug)]
pub struct Recorded<'def, W> {
    run: ChannelSystemRun<'def>,
    recorder: Recorder<W>,
}

impl<'def, W: Write> Recorded<'def, W> {
    /// The run, to read.
    pub fn run(&self) -> &ChannelSystemRun<'def> {
        &self.run
    }

    /// [`ChannelSystemRun::transition`], recorded.
    pub fn transition(&mut self, pg_id: PgId, action: Action, post: &[Location]) -> Result<Option<Event>, CsError> {
        let word = self.run.next_word();
        let answer = self.run.transition(pg_id, action, post);
        self.stepped(pg_id, action, post, word, answer)
    }

    /// [`ChannelSystemRun::transition_with`], recorded.
    pub fn transition_with(&mut self, pg_id: PgId, action: Action, post: &[Location], word: u64) -> Result<Option<Event>, CsError> {
        let answer = self.run.transition_with(pg_id, action, post, word);
        self.stepped(pg_id, action, post, word, answer)
    }

    fn stepped<T>(&mut self, pg_id: PgId, action: Action, post: &[Location], word: u64, answer: Result<T, CsError>) -> Result<T, CsError> {
        let call = Call::Step { pg_id, action, post: post.to_vec(), word };
        self.recorder.add(&Record { call, answer: number_of(&answer) });
        answer
    }

    /// [`ChannelSystemRun::wait`], recorded.
    pub fn wait(&mut self, delta: Time) -> Result<(), CsError> {
        let answer = self.run.wait(delta);
        self.recorder.add(&Record { call: Call::Wait { delta }, answer: number_of(&answer) });
        answer
    }

    /// Writes what is left, and gives the run and the writer back.
    pub fn finish(self) -> io::Result<(ChannelSystemRun<'def>, W)> {
        Ok((self.run, self.recorder.finish()?))
    }
}

fn number_of<T>(answer: &Result<T, CsError>) -> u8 {
    answer.as_ref().map_or_else(|refusal| refusal.number() as u8, |_| 0)
}

/// What ended a replay. The run is what it was before.
#[derive(Debug, Clone, Copy, PartialEq, Eq)]
pub enum ReplayError {
    /// A block that is not well formed. [`fault`] says what is wrong with it.
    BadBlock {
        /// Its place, from 0.
        block: u64,
    },
    /// The first record whose answer is another one here.
    Differs {
        /// The place of its block, from 0.
        block: u64,
        /// Its place in the block, from 0.
        record: u64,
        /// The answer that was recorded.
        recorded: u32,
        /// The answer here.
        given: u32,
    },
    /// 32: a table or a state that is not well formed. Only the archive writes those of this crate, so it is not seen.
    BadState,
    /// A number that no rule has.
    Unnamed(u32),
}

impl fmt::Display for ReplayError {
    fn fmt(&self, f: &mut fmt::Formatter<'_>) -> fmt::Result {
        match self {
            ReplayError::BadBlock { block } => write!(f, "block {block} is not well formed"),
            ReplayError::Differs { block, record, recorded, given } => {
                write!(f, "record {record} of block {block} was recorded as {}, here it is {}", told(*recorded), told(*given))
            }
            ReplayError::BadState => f.write_str("a table or a state that is not well formed"),
            ReplayError::Unnamed(number) => write!(f, "refusal {number}"),
        }
    }
}

impl Error for ReplayError {}

/// An answer in words: `ok`, or `refused` with the number and the name.
pub fn told(answer: u32) -> String {
    match (answer, refusal_name(answer)) {
        (0, _) => "ok".to_string(),
        (_, Some(name)) => format!("refused {answer}, {name}"),
        (_, None) => format!("refused {answer}, a number without a name"),
    }
}

impl<'def> ChannelSystemRun<'def> {
    /// This run beside a recorder. A replay begins where the recording did: mostly from a fresh run.
    pub fn record<W: Write>(self, recorder: Recorder<W>) -> Recorded<'def, W> {
        Recorded { run: self, recorder }
    }

    /// Replays a recording: makes its calls, with the words that were recorded, and compares the answers. It answers how many records
    /// there were, and the run is where it ended; or what it found, and the run is what it was.
    pub fn replay(&mut self, bytes: &[u8]) -> Result<u64, ReplayError> {
        let (table, state) = self.words_mut();
        archive::replay(table, state, bytes).map_err(|(number, [block, record, recorded, given])| match number {
            37 => ReplayError::BadBlock { block },
            38 => ReplayError::Differs { block, record, recorded: recorded as u32, given: given as u32 },
            32 => ReplayError::BadState,
            _ => ReplayError::Unnamed(number),
        })
    }

    /// Makes the calls of a recording that stand before a record: the place to look at, when that record differs. The recorded answers
    /// of the record's own block are not compared.
    pub fn replay_before(&mut self, bytes: &[u8], block: u64, record: u64) -> Result<(), ReplayError> {
        let bad = ReplayError::BadBlock { block };
        let start = usize::try_from(block).ok().and_then(|block| block.checked_mul(BLOCK)).ok_or(bad)?;
        let mut run = self.clone();
        run.replay(bytes.get(..start).ok_or(bad)?)?;
        for before in 0..record {
            match record_at(bytes, block, before).ok_or(bad)?.call {
                // A refused call moves nothing.
                Call::Step { pg_id, action, post, word } => drop(run.transition_with(pg_id, action, &post, word)),
                Call::Wait { delta } => drop(run.wait(delta)),
            }
        }
        *self = run;
        Ok(())
    }
}

fn block_of(bytes: &[u8], block: u64) -> &[u8] {
    let start = usize::try_from(block).ok().and_then(|block| block.checked_mul(BLOCK)).unwrap_or(usize::MAX).min(bytes.len());
    &bytes[start..bytes.len().min(start.saturating_add(BLOCK))]
}

/// A record of a recording, by the place of its block and its place there; none, if there is no such record.
pub fn record_at(bytes: &[u8], block: u64, record: u64) -> Option<Record> {
    let block = block_of(bytes, block);
    let count = u64::from(*block.get(COUNT)?).min(RECORDS as u64);
    let start = HEAD + RECORD * usize::try_from(record).ok().filter(|_| record < count)?;
    Record::of(block.get(start..start + RECORD)?.try_into().ok()?)
}

/// What is wrong with a block.
#[derive(Debug, Clone, Copy, PartialEq, Eq)]
pub enum Fault {
    /// It has only so many bytes.
    Short(usize),
    /// It says this sum, and has that one.
    Sum {
        /// The sum that stands in it.
        says: u32,
        /// The sum of its bytes.
        has: u32,
    },
    /// It says that it is block number so.
    Number(u32),
    /// It says that it has so many records: more than 15, or fewer and it is not the last.
    Count(u8),
    /// A byte of its head that has to be 0.
    Head(usize),
    /// A record that is none.
    Record(usize),
    /// A place after the last record that is not all 0.
    Unused(usize),
}

impl fmt::Display for Fault {
    fn fmt(&self, f: &mut fmt::Formatter<'_>) -> fmt::Result {
        match self {
            Fault::Short(bytes) => write!(f, "it ends after {bytes} of its {BLOCK} bytes"),
            Fault::Sum { says, has } => write!(f, "its sum is {has}, and it says {says}"),
            Fault::Number(number) => write!(f, "it says that it is block {number}"),
            Fault::Count(count) if usize::from(*count) > RECORDS => {
                write!(f, "it says that it has {count} records, and there is room for {RECORDS}")
            }
            Fault::Count(count) => write!(f, "it has {count} records, and only the last block may have less than {RECORDS}"),
            Fault::Head(byte) => write!(f, "its byte {byte} has to be 0"),
            Fault::Record(record) => write!(f, "its record {record} is none"),
            Fault::Unused(record) => write!(f, "it has no record {record}, and its bytes there have to be 0"),
        }
    }
}

/// What is wrong with a block of a recording, the sum first; none, if nothing is, or if there is no such block.
pub fn fault(bytes: &[u8], block: u64) -> Option<Fault> {
    let (place, block) = (block, block_of(bytes, block));
    if block.len() < BLOCK {
        return (!block.is_empty()).then_some(Fault::Short(block.len()));
    }
    let word = |at: usize| u32::from_le_bytes([block[at], block[at + 1], block[at + 2], block[at + 3]]);
    if word(SUMMED) != sum(block) {
        return Some(Fault::Sum { says: word(SUMMED), has: sum(block) });
    }
    if u64::from(word(0)) != place {
        return Some(Fault::Number(word(0)));
    }
    let last = bytes.len() as u64 == (place + 1) * BLOCK as u64;
    let count = usize::from(block[COUNT]);
    if count > RECORDS || (count < RECORDS && !last) {
        return Some(Fault::Count(block[COUNT]));
    }
    if let Some(byte) = (COUNT + 1..HEAD).find(|byte| block[*byte] != 0) {
        return Some(Fault::Head(byte));
    }
    block[HEAD..SUMMED].chunks_exact(RECORD).enumerate().find_map(|(i, record)| {
        if i >= count {
            return record.iter().any(|byte| *byte != 0).then_some(Fault::Unused(i));
        }
        let record: &[u8; RECORD] = record.try_into().ok()?;
        Record::of(record).is_none().then_some(Fault::Record(i))
    })
}
