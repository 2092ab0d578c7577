//! The archive's calls. This is the one module with `unsafe`.
//!
//! Every call takes slices as a pointer and a number of words, reads and writes within them, keeps none of them, and ends. It
//! answers 0, or the number of a refusal, which leaves every lent word as it was (a system's wait alone names a graph with its 9). That is
//! proved of the archive's calls for all slices and all numbers. What is left to this module: each pointer and length are those of one live
//! slice, a slice that is written is lent alone, and the declarations below are the header's (tests/header.rs compares them).

#![allow(unsafe_code)]

use crate::{
    Time, Type, Val,
    channel_system::{Channel, ChannelCapacity, Event, EventType, PgId},
    listing::Entry,
};
use std::ops::Range;

type Slice = *const u64;
type Lent = *mut u64;

// SAFETY: these are the declarations of include/njunnemar.h; the first ones take no pointer.
unsafe extern "C" {
    safe fn njn_graph_words() -> usize;
    safe fn njn_run_words() -> usize;
    safe fn njn_system_words() -> usize;
    safe fn njn_state_words() -> usize;

    fn njn_graph_new(t: Lent, t_len: usize) -> u32;
    fn njn_graph_new_var(t: Lent, t_len: usize, kind: u64, payload: u64, out: Lent, out_len: usize) -> u32;
    fn njn_graph_new_clock(t: Lent, t_len: usize, out: Lent, out_len: usize) -> u32;
    fn njn_graph_new_action(t: Lent, t_len: usize, out: Lent, out_len: usize) -> u32;
    fn njn_graph_add_reset(t: Lent, t_len: usize, action: u32, clock: u32) -> u32;
    fn njn_graph_add_effect(t: Lent, t_len: usize, action: u32, var: u32, effect: Slice, effect_len: usize) -> u32;
    fn njn_graph_new_send(
        t: Lent,
        t_len: usize,
        count: usize,
        w: Slice,
        w_len: usize,
        x: Slice,
        x_len: usize,
        y: Slice,
        y_len: usize,
        z: Slice,
        z_len: usize,
        out: Lent,
        out_len: usize,
    ) -> u32;
    fn njn_graph_new_receive(t: Lent, t_len: usize, vars: *const u32, vars_len: usize, out: Lent, out_len: usize) -> u32;
    fn njn_graph_new_timed_location(t: Lent, t_len: usize, invariants: Slice, invariants_len: usize, out: Lent, out_len: usize) -> u32;
    fn njn_graph_new_process(t: Lent, t_len: usize, location: u32) -> u32;
    fn njn_graph_new_initial_timed_location(
        t: Lent,
        t_len: usize,
        invariants: Slice,
        invariants_len: usize,
        out: Lent,
        out_len: usize,
    ) -> u32;
    fn njn_graph_add_timed_transition(
        t: Lent,
        t_len: usize,
        pre: u32,
        action: u32,
        post: u32,
        guarded: bool,
        guard: Slice,
        guard_len: usize,
        limits: Slice,
        limits_len: usize,
    ) -> u32;
    fn njn_graph_build(t: Slice, t_len: usize) -> u32;

    fn njn_run_new(t: Slice, t_len: usize, r: Lent, r_len: usize) -> u32;
    fn njn_run_transition(
        t: Slice,
        t_len: usize,
        r: Lent,
        r_len: usize,
        action: u32,
        posts: *const u32,
        posts_len: usize,
        word: u64,
    ) -> u32;
    fn njn_run_send(
        t: Slice,
        t_len: usize,
        r: Lent,
        r_len: usize,
        action: u32,
        posts: *const u32,
        posts_len: usize,
        word: u64,
        out: Lent,
        out_len: usize,
    ) -> u32;
    fn njn_run_receive(
        t: Slice,
        t_len: usize,
        r: Lent,
        r_len: usize,
        action: u32,
        posts: *const u32,
        posts_len: usize,
        values: Slice,
        values_len: usize,
    ) -> u32;
    fn njn_run_wait(t: Slice, t_len: usize, r: Lent, r_len: usize, delta: u32) -> u32;
    fn njn_run_can_wait(t: Slice, t_len: usize, r: Slice, r_len: usize, delta: u32, out: Lent, out_len: usize) -> u32;
    fn njn_run_is_waiting(t: Slice, t_len: usize, r: Slice, r_len: usize, out: Lent, out_len: usize) -> u32;
    fn njn_run_current_states(t: Slice, t_len: usize, r: Slice, r_len: usize, out: Lent, out_len: usize) -> u32;
    fn njn_run_value(t: Slice, t_len: usize, r: Slice, r_len: usize, var: u32, out: Lent, out_len: usize) -> u32;
    fn njn_run_time(t: Slice, t_len: usize, r: Slice, r_len: usize, clock: u32, out: Lent, out_len: usize) -> u32;
    fn njn_run_possible_transitions(t: Slice, t_len: usize, r: Slice, r_len: usize, k: usize, out: Lent, out_len: usize) -> u32;
    fn njn_run_nosync_possible_transitions(t: Slice, t_len: usize, r: Slice, r_len: usize, k: usize, out: Lent, out_len: usize) -> u32;

    fn njn_system_new(t: Lent, t_len: usize) -> u32;
    fn njn_system_new_program_graph(t: Lent, t_len: usize, out: Lent, out_len: usize) -> u32;
    fn njn_system_new_channel(
        t: Lent,
        t_len: usize,
        kinds: *const u32,
        kinds_len: usize,
        sort: u32,
        bound: u32,
        out: Lent,
        out_len: usize,
    ) -> u32;
    fn njn_system_build(t: Slice, t_len: usize) -> u32;
    fn njn_system_new_var(t: Lent, t_len: usize, pg: u32, kind: u64, payload: u64, out: Lent, out_len: usize) -> u32;
    fn njn_system_new_clock(t: Lent, t_len: usize, pg: u32, out: Lent, out_len: usize) -> u32;
    fn njn_system_new_action(t: Lent, t_len: usize, pg: u32, out: Lent, out_len: usize) -> u32;
    fn njn_system_add_reset(t: Lent, t_len: usize, pg: u32, action: u32, clock: u32) -> u32;
    fn njn_system_add_effect(t: Lent, t_len: usize, pg: u32, action: u32, var: u32, effect: Slice, effect_len: usize) -> u32;
    fn njn_system_new_timed_location(
        t: Lent,
        t_len: usize,
        pg: u32,
        invariants: Slice,
        invariants_len: usize,
        out: Lent,
        out_len: usize,
    ) -> u32;
    fn njn_system_new_process(t: Lent, t_len: usize, pg: u32, location: u32) -> u32;
    fn njn_system_new_initial_timed_location(
        t: Lent,
        t_len: usize,
        pg: u32,
        invariants: Slice,
        invariants_len: usize,
        out: Lent,
        out_len: usize,
    ) -> u32;
    fn njn_system_add_timed_transition(
        t: Lent,
        t_len: usize,
        pg: u32,
        pre: u32,
        action: u32,
        post: u32,
        guarded: bool,
        guard: Slice,
        guard_len: usize,
        limits: Slice,
        limits_len: usize,
    ) -> u32;
    fn njn_system_new_send(
        t: Lent,
        t_len: usize,
        pg: u32,
        channel: u32,
        count: usize,
        w: Slice,
        w_len: usize,
        x: Slice,
        x_len: usize,
        y: Slice,
        y_len: usize,
        z: Slice,
        z_len: usize,
        out: Lent,
        out_len: usize,
    ) -> u32;
    fn njn_system_new_receive(
        t: Lent,
        t_len: usize,
        pg: u32,
        channel: u32,
        vars: *const u32,
        vars_len: usize,
        out: Lent,
        out_len: usize,
    ) -> u32;
    fn njn_system_new_probe_empty_queue(t: Lent, t_len: usize, pg: u32, channel: u32, out: Lent, out_len: usize) -> u32;
    fn njn_system_new_probe_full_queue(t: Lent, t_len: usize, pg: u32, channel: u32, out: Lent, out_len: usize) -> u32;

    fn njn_state_new(t: Slice, t_len: usize, s: Lent, s_len: usize) -> u32;
    fn njn_state_transition(
        t: Slice,
        t_len: usize,
        s: Lent,
        s_len: usize,
        pg: u32,
        owner: u32,
        action: u32,
        posts: Slice,
        posts_len: usize,
        word: u64,
        out: Lent,
        out_len: usize,
    ) -> u32;
    fn njn_state_wait(t: Slice, t_len: usize, s: Lent, s_len: usize, delta: u32, out: Lent, out_len: usize) -> u32;
    fn njn_state_can_wait(t: Slice, t_len: usize, s: Slice, s_len: usize, delta: u32, out: Lent, out_len: usize) -> u32;
    fn njn_state_is_waiting(t: Slice, t_len: usize, s: Slice, s_len: usize, out: Lent, out_len: usize) -> u32;
    fn njn_state_possible_transitions_pg(
        t: Slice,
        t_len: usize,
        s: Slice,
        s_len: usize,
        pg: u32,
        k: usize,
        out: Lent,
        out_len: usize,
    ) -> u32;
    fn njn_state_nosync_possible_transitions_pg(
        t: Slice,
        t_len: usize,
        s: Slice,
        s_len: usize,
        pg: u32,
        k: usize,
        out: Lent,
        out_len: usize,
    ) -> u32;
    fn njn_state_time(t: Slice, t_len: usize, s: Slice, s_len: usize, out: Lent, out_len: usize) -> u32;
    fn njn_state_queue_length(t: Slice, t_len: usize, s: Slice, s_len: usize, channel: u32, out: Lent, out_len: usize) -> u32;
    fn njn_state_queue_value(t: Slice, t_len: usize, s: Slice, s_len: usize, channel: u32, k: usize, out: Lent, out_len: usize) -> u32;
    fn njn_state_replay(
        t: Slice,
        t_len: usize,
        s: Lent,
        s_len: usize,
        bytes: *const u8,
        bytes_len: usize,
        out: Lent,
        out_len: usize,
    ) -> u32;
    fn njn_block_put_step(
        block: *mut u8,
        block_len: usize,
        i: usize,
        pg: u8,
        action: u32,
        posts: *const u16,
        posts_len: usize,
        word: u64,
        answer: u8,
    ) -> u32;
    fn njn_block_put_wait(block: *mut u8, block_len: usize, i: usize, delta: u32, answer: u8) -> u32;
    fn njn_block_seal(block: *mut u8, block_len: usize, place: u32, count: usize) -> u32;
    fn njn_state_why(
        t: Slice,
        t_len: usize,
        s: Slice,
        s_len: usize,
        guards: Slice,
        guards_len: usize,
        limits: Slice,
        limits_len: usize,
        pg: u32,
        owner: u32,
        action: u32,
        posts: Slice,
        posts_len: usize,
        word: u64,
        out: Lent,
        out_len: usize,
    ) -> u32;
}

/// What a call gave, or the number of its refusal.
pub(crate) type Answer<T> = Result<T, u32>;

fn answered<T>(number: u32, given: T) -> Answer<T> {
    if number == 0 { Ok(given) } else { Err(number) }
}

/// The answer of a call that reads a table and a state of this crate. Only the archive writes these, from a fresh table on, so
/// that they fit is a theorem and the call is not refused.
fn own<T: Default>(answer: Answer<T>) -> T {
    debug_assert!(answer.is_ok(), "the archive's own words do not fit");
    answer.unwrap_or_default()
}

fn zeros(words: usize) -> Box<[u64]> {
    vec![0; words].into_boxed_slice()
}

/// The words of a graph.
#[derive(Debug, Clone, PartialEq, Eq)]
pub(crate) struct GraphTable(Box<[u64]>);

/// The words of a run of a graph.
#[derive(Debug, Clone, PartialEq, Eq)]
pub(crate) struct RunWords(Box<[u64]>);

/// The words of a system.
#[derive(Debug, Clone, PartialEq, Eq)]
pub(crate) struct SystemTable(Box<[u64]>);

/// The words of a state of a system.
#[derive(Debug, Clone, PartialEq, Eq)]
pub(crate) struct StateWords(Box<[u64]>);

impl GraphTable {
    /// An empty graph.
    pub(crate) fn new() -> Self {
        let mut t = zeros(njn_graph_words());
        // SAFETY: the table is a live box, lent alone.
        own(answered(unsafe { njn_graph_new(t.as_mut_ptr(), t.len()) }, ()));
        GraphTable(t)
    }
}

// Where the graphs of a system stand (docs/LAYOUT.md): each is one slice of the system's words.
const FIRST_GRAPH: usize = 90;
const GRAPH_STRIDE: usize = 46_922;
const GRAPHS: usize = 8;

// In a graph's words: its actions' rows, its limits, its guards' items.
const ACTIONS: usize = 74;
const ACTION_WORDS: usize = 51;
const LIMITS: Range<usize> = 2090..5930;
const GUARDS: Range<usize> = 5930..14_122;

impl SystemTable {
    /// An empty system.
    pub(crate) fn new() -> Self {
        let mut t = zeros(njn_system_words());
        // SAFETY: the table is a live box, lent alone.
        own(answered(unsafe { njn_system_new(t.as_mut_ptr(), t.len()) }, ()));
        SystemTable(t)
    }

    /// A graph of the system as one of its own, if it can be run.
    pub(crate) fn graph(&self, pg: usize) -> Answer<GraphTable> {
        let start = FIRST_GRAPH + GRAPH_STRIDE * pg;
        let words = self.0.get(start..start + njn_graph_words()).ok_or(32_u32)?;
        let table = GraphTable(words.into());
        build_graph(&table)?;
        Ok(table)
    }

    /// The same region of every graph, one behind the other.
    fn regions(&self, region: Range<usize>) -> Vec<u64> {
        let of_graph = |pg| self.0.iter().skip(FIRST_GRAPH + GRAPH_STRIDE * pg + region.start).take(region.len());
        (0..GRAPHS).flat_map(of_graph).copied().collect()
    }

    /// Whether an action of a graph resets a clock.
    pub(crate) fn resets(&self, pg: u32, action: u32, clock: u32) -> bool {
        let row = FIRST_GRAPH + GRAPH_STRIDE * pg as usize + ACTIONS + ACTION_WORDS * action as usize;
        let resets = self.0.get(row + 1).copied().unwrap_or(0) as usize;
        action != u32::MAX && self.0.iter().skip(row + 3).take(resets).any(|reset| *reset == u64::from(clock))
    }
}

/// Where a graph is built: on a table of its own, or inside a system.
pub(crate) enum Place<'a> {
    Alone(&'a mut GraphTable),
    Inside(&'a mut SystemTable, u32),
}

fn kind_word(kind: Type) -> u32 {
    match kind {
        Type::Boolean => 0,
        Type::Integer => 1,
    }
}

/// The kind and the payload of a value.
fn value_words(val: Val) -> [u64; 2] {
    match val {
        Val::Boolean(b) => [0, u64::from(b)],
        Val::Integer(n) => [1, u64::from(n as u32)],
    }
}

fn value_of(kind: u64, payload: u64) -> Val {
    if kind == 0 { Val::Boolean(payload != 0) } else { Val::Integer(payload as u32 as i32) }
}

/// The values of a message: their count, then four of them.
fn message_of(words: &[u64]) -> Vec<Val> {
    let values = words[1..].chunks_exact(2).map(|word| value_of(word[0], word[1]));
    values.take(words[0] as usize).collect()
}

pub(crate) fn new_var(place: Place<'_>, val: Val) -> Answer<u32> {
    let [kind, payload] = value_words(val);
    let mut out = [0; 1];
    let (o, n) = (out.as_mut_ptr(), out.len());
    let number = match place {
        // SAFETY: table and result are live, and each is lent alone.
        Place::Alone(GraphTable(t)) => unsafe { njn_graph_new_var(t.as_mut_ptr(), t.len(), kind, payload, o, n) },
        // SAFETY: table and result are live, and each is lent alone.
        Place::Inside(SystemTable(t), pg) => unsafe { njn_system_new_var(t.as_mut_ptr(), t.len(), pg, kind, payload, o, n) },
    };
    answered(number, out[0] as u32)
}

pub(crate) fn new_clock(place: Place<'_>) -> Answer<u32> {
    let mut out = [0; 1];
    let (o, n) = (out.as_mut_ptr(), out.len());
    let number = match place {
        // SAFETY: table and result are live, and each is lent alone.
        Place::Alone(GraphTable(t)) => unsafe { njn_graph_new_clock(t.as_mut_ptr(), t.len(), o, n) },
        // SAFETY: table and result are live, and each is lent alone.
        Place::Inside(SystemTable(t), pg) => unsafe { njn_system_new_clock(t.as_mut_ptr(), t.len(), pg, o, n) },
    };
    answered(number, out[0] as u32)
}

pub(crate) fn new_action(place: Place<'_>) -> Answer<u32> {
    let mut out = [0; 1];
    let (o, n) = (out.as_mut_ptr(), out.len());
    let number = match place {
        // SAFETY: table and result are live, and each is lent alone.
        Place::Alone(GraphTable(t)) => unsafe { njn_graph_new_action(t.as_mut_ptr(), t.len(), o, n) },
        // SAFETY: table and result are live, and each is lent alone.
        Place::Inside(SystemTable(t), pg) => unsafe { njn_system_new_action(t.as_mut_ptr(), t.len(), pg, o, n) },
    };
    answered(number, out[0] as u32)
}

pub(crate) fn add_reset(place: Place<'_>, action: u32, clock: u32) -> Answer<()> {
    let number = match place {
        // SAFETY: the table is live and lent alone.
        Place::Alone(GraphTable(t)) => unsafe { njn_graph_add_reset(t.as_mut_ptr(), t.len(), action, clock) },
        // SAFETY: the table is live and lent alone.
        Place::Inside(SystemTable(t), pg) => unsafe { njn_system_add_reset(t.as_mut_ptr(), t.len(), pg, action, clock) },
    };
    answered(number, ())
}

pub(crate) fn add_effect(place: Place<'_>, action: u32, var: u32, effect: &[u64]) -> Answer<()> {
    let (e, n) = (effect.as_ptr(), effect.len());
    let number = match place {
        // SAFETY: the table is live and lent alone; the items are live and read.
        Place::Alone(GraphTable(t)) => unsafe { njn_graph_add_effect(t.as_mut_ptr(), t.len(), action, var, e, n) },
        // SAFETY: the table is live and lent alone; the items are live and read.
        Place::Inside(SystemTable(t), pg) => unsafe { njn_system_add_effect(t.as_mut_ptr(), t.len(), pg, action, var, e, n) },
    };
    answered(number, ())
}

/// The first four expressions of a message; where there are fewer, the others are empty and not read.
fn four<'a>(messages: &[&'a [u64]]) -> [&'a [u64]; 4] {
    [0, 1, 2, 3].map(|i| messages.get(i).copied().unwrap_or_default())
}

pub(crate) fn new_send(table: &mut GraphTable, messages: &[&[u64]]) -> Answer<u32> {
    let (t, [w, x, y, z], mut out) = (&mut table.0, four(messages), [0; 1]);
    // SAFETY: table and result are live, and each is lent alone; the items are live and read.
    let number = unsafe {
        njn_graph_new_send(
            t.as_mut_ptr(),
            t.len(),
            messages.len(),
            w.as_ptr(),
            w.len(),
            x.as_ptr(),
            x.len(),
            y.as_ptr(),
            y.len(),
            z.as_ptr(),
            z.len(),
            out.as_mut_ptr(),
            out.len(),
        )
    };
    answered(number, out[0] as u32)
}

pub(crate) fn new_receive(table: &mut GraphTable, vars: &[u32]) -> Answer<u32> {
    let (t, mut out) = (&mut table.0, [0; 1]);
    // SAFETY: table and result are live, and each is lent alone; the variables are live and read.
    let number = unsafe { njn_graph_new_receive(t.as_mut_ptr(), t.len(), vars.as_ptr(), vars.len(), out.as_mut_ptr(), out.len()) };
    answered(number, out[0] as u32)
}

pub(crate) fn new_timed_location(place: Place<'_>, invariants: &[u64]) -> Answer<u32> {
    let (i, m, mut out) = (invariants.as_ptr(), invariants.len(), [0; 1]);
    let (o, n) = (out.as_mut_ptr(), out.len());
    let number = match place {
        // SAFETY: table and result are live, and each is lent alone; the limits are live and read.
        Place::Alone(GraphTable(t)) => unsafe { njn_graph_new_timed_location(t.as_mut_ptr(), t.len(), i, m, o, n) },
        // SAFETY: table and result are live, and each is lent alone; the limits are live and read.
        Place::Inside(SystemTable(t), pg) => unsafe { njn_system_new_timed_location(t.as_mut_ptr(), t.len(), pg, i, m, o, n) },
    };
    answered(number, out[0] as u32)
}

pub(crate) fn new_process(place: Place<'_>, location: u32) -> Answer<()> {
    let number = match place {
        // SAFETY: the table is live and lent alone.
        Place::Alone(GraphTable(t)) => unsafe { njn_graph_new_process(t.as_mut_ptr(), t.len(), location) },
        // SAFETY: the table is live and lent alone.
        Place::Inside(SystemTable(t), pg) => unsafe { njn_system_new_process(t.as_mut_ptr(), t.len(), pg, location) },
    };
    answered(number, ())
}

pub(crate) fn new_initial_timed_location(place: Place<'_>, invariants: &[u64]) -> Answer<u32> {
    let (i, m, mut out) = (invariants.as_ptr(), invariants.len(), [0; 1]);
    let (o, n) = (out.as_mut_ptr(), out.len());
    let number = match place {
        // SAFETY: table and result are live, and each is lent alone; the limits are live and read.
        Place::Alone(GraphTable(t)) => unsafe { njn_graph_new_initial_timed_location(t.as_mut_ptr(), t.len(), i, m, o, n) },
        // SAFETY: table and result are live, and each is lent alone; the limits are live and read.
        Place::Inside(SystemTable(t), pg) => unsafe { njn_system_new_initial_timed_location(t.as_mut_ptr(), t.len(), pg, i, m, o, n) },
    };
    answered(number, out[0] as u32)
}

pub(crate) fn add_timed_transition(
    place: Place<'_>,
    (pre, action, post): (u32, u32, u32),
    guard: Option<&[u64]>,
    limits: &[u64],
) -> Answer<()> {
    let (guarded, guard) = (guard.is_some(), guard.unwrap_or_default());
    let (g, m, l, n) = (guard.as_ptr(), guard.len(), limits.as_ptr(), limits.len());
    let number = match place {
        // SAFETY: the table is live and lent alone; guard and limits are live and read.
        Place::Alone(GraphTable(t)) => unsafe {
            njn_graph_add_timed_transition(t.as_mut_ptr(), t.len(), pre, action, post, guarded, g, m, l, n)
        },
        // SAFETY: the table is live and lent alone; guard and limits are live and read.
        Place::Inside(SystemTable(t), pg) => unsafe {
            njn_system_add_timed_transition(t.as_mut_ptr(), t.len(), pg, pre, action, post, guarded, g, m, l, n)
        },
    };
    answered(number, ())
}

pub(crate) fn build_graph(table: &GraphTable) -> Answer<()> {
    let t = &table.0;
    // SAFETY: the table is live and read.
    answered(unsafe { njn_graph_build(t.as_ptr(), t.len()) }, ())
}

pub(crate) fn new_run(table: &GraphTable) -> RunWords {
    let (t, mut r) = (&table.0, zeros(njn_run_words()));
    // SAFETY: the table is live and read; the run is a live box, lent alone.
    own(answered(unsafe { njn_run_new(t.as_ptr(), t.len(), r.as_mut_ptr(), r.len()) }, ()));
    RunWords(r)
}

pub(crate) fn transition(table: &GraphTable, run: &mut RunWords, action: u32, posts: &[u32], word: u64) -> Answer<()> {
    let (t, r) = (&table.0, &mut run.0);
    // SAFETY: table and posts are live and read; the run is live and lent alone.
    let number = unsafe { njn_run_transition(t.as_ptr(), t.len(), r.as_mut_ptr(), r.len(), action, posts.as_ptr(), posts.len(), word) };
    answered(number, ())
}

pub(crate) fn send(table: &GraphTable, run: &mut RunWords, action: u32, posts: &[u32], word: u64) -> Answer<Vec<Val>> {
    let (t, r, mut out) = (&table.0, &mut run.0, [0; 9]);
    // SAFETY: table and posts are live and read; run and result are live, and each is lent alone.
    let number = unsafe {
        njn_run_send(t.as_ptr(), t.len(), r.as_mut_ptr(), r.len(), action, posts.as_ptr(), posts.len(), word, out.as_mut_ptr(), out.len())
    };
    answered(number, message_of(&out))
}

pub(crate) fn receive(table: &GraphTable, run: &mut RunWords, action: u32, posts: &[u32], vals: &[Val]) -> Answer<()> {
    let (t, r) = (&table.0, &mut run.0);
    let values: Vec<u64> = vals.iter().flat_map(|val| value_words(*val)).collect();
    // SAFETY: table, posts and values are live and read; the run is live and lent alone.
    let number = unsafe {
        njn_run_receive(t.as_ptr(), t.len(), r.as_mut_ptr(), r.len(), action, posts.as_ptr(), posts.len(), values.as_ptr(), values.len())
    };
    answered(number, ())
}

pub(crate) fn wait(table: &GraphTable, run: &mut RunWords, delta: Time) -> Answer<()> {
    let (t, r) = (&table.0, &mut run.0);
    // SAFETY: the table is live and read; the run is live and lent alone.
    answered(unsafe { njn_run_wait(t.as_ptr(), t.len(), r.as_mut_ptr(), r.len(), delta) }, ())
}

pub(crate) fn can_wait(table: &GraphTable, run: &RunWords, delta: Time) -> bool {
    let (t, r, mut out) = (&table.0, &run.0, [0; 1]);
    // SAFETY: table and run are live and read; the result is live and lent alone.
    let number = unsafe { njn_run_can_wait(t.as_ptr(), t.len(), r.as_ptr(), r.len(), delta, out.as_mut_ptr(), out.len()) };
    own(answered(number, out[0] != 0))
}

pub(crate) fn is_waiting(table: &GraphTable, run: &RunWords) -> bool {
    let (t, r, mut out) = (&table.0, &run.0, [0; 1]);
    // SAFETY: table and run are live and read; the result is live and lent alone.
    let number = unsafe { njn_run_is_waiting(t.as_ptr(), t.len(), r.as_ptr(), r.len(), out.as_mut_ptr(), out.len()) };
    own(answered(number, out[0] != 0))
}

pub(crate) fn places(table: &GraphTable, run: &RunWords) -> Vec<u32> {
    let (t, r, mut out) = (&table.0, &run.0, [0; 5]);
    // SAFETY: table and run are live and read; the result is live and lent alone.
    let number = unsafe { njn_run_current_states(t.as_ptr(), t.len(), r.as_ptr(), r.len(), out.as_mut_ptr(), out.len()) };
    let places = out[1..].iter().take(out[0] as usize);
    own(answered(number, places.map(|place| *place as u32).collect()))
}

pub(crate) fn value(table: &GraphTable, run: &RunWords, var: u32) -> Answer<Val> {
    let (t, r, mut out) = (&table.0, &run.0, [0; 2]);
    // SAFETY: table and run are live and read; the result is live and lent alone.
    let number = unsafe { njn_run_value(t.as_ptr(), t.len(), r.as_ptr(), r.len(), var, out.as_mut_ptr(), out.len()) };
    answered(number, value_of(out[0], out[1]))
}

pub(crate) fn clock(table: &GraphTable, run: &RunWords, clock: u32) -> Answer<Time> {
    let (t, r, mut out) = (&table.0, &run.0, [0; 1]);
    // SAFETY: table and run are live and read; the result is live and lent alone.
    let number = unsafe { njn_run_time(t.as_ptr(), t.len(), r.as_ptr(), r.len(), clock, out.as_mut_ptr(), out.len()) };
    answered(number, out[0] as Time)
}

/// An entry of a listing: whether there is one, then its parts.
fn entry_of(words: [u64; 4]) -> Option<Entry> {
    let [there, action, process, post] = words;
    (there != 0).then_some(Entry { action: action as u32, process: process as u32, post: post as u32 })
}

pub(crate) fn possible(table: &GraphTable, run: &RunWords, k: usize) -> Option<Entry> {
    let (t, r, mut out) = (&table.0, &run.0, [0; 4]);
    // SAFETY: table and run are live and read; the result is live and lent alone.
    let number = unsafe { njn_run_possible_transitions(t.as_ptr(), t.len(), r.as_ptr(), r.len(), k, out.as_mut_ptr(), out.len()) };
    own(answered(number, entry_of(out)))
}

pub(crate) fn nosync_possible(table: &GraphTable, run: &RunWords, k: usize) -> Answer<Option<Entry>> {
    let (t, r, mut out) = (&table.0, &run.0, [0; 4]);
    // SAFETY: table and run are live and read; the result is live and lent alone.
    let number = unsafe { njn_run_nosync_possible_transitions(t.as_ptr(), t.len(), r.as_ptr(), r.len(), k, out.as_mut_ptr(), out.len()) };
    answered(number, entry_of(out))
}

/// The value of a constant expression: what a graph's one variable holds after a step that sets it.
pub(crate) fn constant(kind: Type, items: &[u64]) -> Option<Val> {
    let mut table = GraphTable::new();
    new_var(Place::Alone(&mut table), kind.default_value()).ok()?;
    new_initial_timed_location(Place::Alone(&mut table), &[]).ok()?;
    new_action(Place::Alone(&mut table)).ok()?;
    add_effect(Place::Alone(&mut table), 0, 0, items).ok()?;
    add_timed_transition(Place::Alone(&mut table), (0, 0, 0), None, &[]).ok()?;
    let mut run = new_run(&table);
    transition(&table, &mut run, 0, &[0], 0).ok()?;
    value(&table, &run, 0).ok()
}

pub(crate) fn new_program_graph(table: &mut SystemTable) -> Answer<u32> {
    let (t, mut out) = (&mut table.0, [0; 1]);
    // SAFETY: table and result are live, and each is lent alone.
    let number = unsafe { njn_system_new_program_graph(t.as_mut_ptr(), t.len(), out.as_mut_ptr(), out.len()) };
    answered(number, out[0] as u32)
}

pub(crate) fn new_channel(table: &mut SystemTable, types: &[Type], capacity: ChannelCapacity) -> Answer<u32> {
    let (t, mut out) = (&mut table.0, [0; 1]);
    let kinds: Vec<u32> = types.iter().map(|kind| kind_word(*kind)).collect();
    let (sort, bound) = match capacity {
        ChannelCapacity::Queue(Some(bound)) => (0, bound),
        ChannelCapacity::Queue(None) => (1, 0),
        ChannelCapacity::Sink => (2, 0),
    };
    // SAFETY: table and result are live, and each is lent alone; the kinds are live and read.
    let number =
        unsafe { njn_system_new_channel(t.as_mut_ptr(), t.len(), kinds.as_ptr(), kinds.len(), sort, bound, out.as_mut_ptr(), out.len()) };
    answered(number, out[0] as u32)
}

pub(crate) fn build_system(table: &SystemTable) -> Answer<()> {
    let t = &table.0;
    // SAFETY: the table is live and read.
    answered(unsafe { njn_system_build(t.as_ptr(), t.len()) }, ())
}

pub(crate) fn new_send_on(table: &mut SystemTable, pg: u32, channel: u32, messages: &[&[u64]]) -> Answer<u32> {
    let (t, [w, x, y, z], mut out) = (&mut table.0, four(messages), [0; 1]);
    // SAFETY: table and result are live, and each is lent alone; the items are live and read.
    let number = unsafe {
        njn_system_new_send(
            t.as_mut_ptr(),
            t.len(),
            pg,
            channel,
            messages.len(),
            w.as_ptr(),
            w.len(),
            x.as_ptr(),
            x.len(),
            y.as_ptr(),
            y.len(),
            z.as_ptr(),
            z.len(),
            out.as_mut_ptr(),
            out.len(),
        )
    };
    answered(number, out[0] as u32)
}

pub(crate) fn new_receive_on(table: &mut SystemTable, pg: u32, channel: u32, vars: &[u32]) -> Answer<u32> {
    let (t, mut out) = (&mut table.0, [0; 1]);
    // SAFETY: table and result are live, and each is lent alone; the variables are live and read.
    let number =
        unsafe { njn_system_new_receive(t.as_mut_ptr(), t.len(), pg, channel, vars.as_ptr(), vars.len(), out.as_mut_ptr(), out.len()) };
    answered(number, out[0] as u32)
}

pub(crate) fn new_probe_empty_queue(table: &mut SystemTable, pg: u32, channel: u32) -> Answer<u32> {
    let (t, mut out) = (&mut table.0, [0; 1]);
    // SAFETY: table and result are live, and each is lent alone.
    let number = unsafe { njn_system_new_probe_empty_queue(t.as_mut_ptr(), t.len(), pg, channel, out.as_mut_ptr(), out.len()) };
    answered(number, out[0] as u32)
}

pub(crate) fn new_probe_full_queue(table: &mut SystemTable, pg: u32, channel: u32) -> Answer<u32> {
    let (t, mut out) = (&mut table.0, [0; 1]);
    // SAFETY: table and result are live, and each is lent alone.
    let number = unsafe { njn_system_new_probe_full_queue(t.as_mut_ptr(), t.len(), pg, channel, out.as_mut_ptr(), out.len()) };
    answered(number, out[0] as u32)
}

pub(crate) fn new_state(table: &SystemTable) -> StateWords {
    let (t, mut s) = (&table.0, zeros(njn_state_words()));
    // SAFETY: the table is live and read; the state is a live box, lent alone.
    own(answered(unsafe { njn_state_new(t.as_ptr(), t.len(), s.as_mut_ptr(), s.len()) }, ()));
    StateWords(s)
}

fn post_words(posts: &[(u32, u32)]) -> Vec<u64> {
    posts.iter().map(|(graph, location)| u64::from(*graph) << 32 | u64::from(*location)).collect()
}

/// A step of graph `pg` by an action of graph `owner`. A post is a graph and a location.
pub(crate) fn step(
    table: &SystemTable,
    state: &mut StateWords,
    pg: u32,
    (owner, action): (u32, u32),
    posts: &[(u32, u32)],
    word: u64,
) -> Answer<Option<Event>> {
    let (t, s, mut out) = (&table.0, &mut state.0, [0; 12]);
    let posts = post_words(posts);
    // SAFETY: table and posts are live and read; state and result are live, and each is lent alone.
    let number = unsafe {
        njn_state_transition(
            t.as_ptr(),
            t.len(),
            s.as_mut_ptr(),
            s.len(),
            pg,
            owner,
            action,
            posts.as_ptr(),
            posts.len(),
            word,
            out.as_mut_ptr(),
            out.len(),
        )
    };
    answered(number, event_of(&out))
}

/// An event: graph, kind, channel and a message.
fn event_of(words: &[u64; 12]) -> Option<Event> {
    let values = || message_of(&words[3..]);
    Some(Event {
        pg_id: PgId(words[0] as u32),
        channel: Channel(words[2] as u32),
        event_type: match words[1] {
            1 => EventType::Send(values()),
            2 => EventType::Receive(values()),
            3 => EventType::ProbeEmptyQueue,
            4 => EventType::ProbeFullQueue,
            _ => return None,
        },
    })
}

/// A wait of a system. Refused with 9 it tells the lowest graph that stands against it.
pub(crate) fn wait_all(table: &SystemTable, state: &mut StateWords, delta: Time) -> Result<(), (u32, u32)> {
    let (t, s, mut out) = (&table.0, &mut state.0, [0; 1]);
    // SAFETY: the table is live and read; state and result are live, and each is lent alone.
    let number = unsafe { njn_state_wait(t.as_ptr(), t.len(), s.as_mut_ptr(), s.len(), delta, out.as_mut_ptr(), out.len()) };
    answered(number, ()).map_err(|number| (number, out[0] as u32))
}

pub(crate) fn can_wait_all(table: &SystemTable, state: &StateWords, delta: Time) -> bool {
    let (t, s, mut out) = (&table.0, &state.0, [0; 1]);
    // SAFETY: table and state are live and read; the result is live and lent alone.
    let number = unsafe { njn_state_can_wait(t.as_ptr(), t.len(), s.as_ptr(), s.len(), delta, out.as_mut_ptr(), out.len()) };
    own(answered(number, out[0] != 0))
}

pub(crate) fn is_any_waiting(table: &SystemTable, state: &StateWords) -> bool {
    let (t, s, mut out) = (&table.0, &state.0, [0; 1]);
    // SAFETY: table and state are live and read; the result is live and lent alone.
    let number = unsafe { njn_state_is_waiting(t.as_ptr(), t.len(), s.as_ptr(), s.len(), out.as_mut_ptr(), out.len()) };
    own(answered(number, out[0] != 0))
}

pub(crate) fn possible_on(table: &SystemTable, state: &StateWords, pg: u32, k: usize) -> Answer<Option<Entry>> {
    let (t, s, mut out) = (&table.0, &state.0, [0; 4]);
    // SAFETY: table and state are live and read; the result is live and lent alone.
    let number = unsafe { njn_state_possible_transitions_pg(t.as_ptr(), t.len(), s.as_ptr(), s.len(), pg, k, out.as_mut_ptr(), out.len()) };
    answered(number, entry_of(out))
}

pub(crate) fn nosync_possible_on(table: &SystemTable, state: &StateWords, pg: u32, k: usize) -> Answer<Option<Entry>> {
    let (t, s, mut out) = (&table.0, &state.0, [0; 4]);
    // SAFETY: table and state are live and read; the result is live and lent alone.
    let number =
        unsafe { njn_state_nosync_possible_transitions_pg(t.as_ptr(), t.len(), s.as_ptr(), s.len(), pg, k, out.as_mut_ptr(), out.len()) };
    answered(number, entry_of(out))
}

pub(crate) fn time(table: &SystemTable, state: &StateWords) -> Time {
    let (t, s, mut out) = (&table.0, &state.0, [0; 1]);
    // SAFETY: table and state are live and read; the result is live and lent alone.
    let number = unsafe { njn_state_time(t.as_ptr(), t.len(), s.as_ptr(), s.len(), out.as_mut_ptr(), out.len()) };
    own(answered(number, out[0] as Time))
}

pub(crate) fn queue(table: &SystemTable, state: &StateWords, channel: u32) -> Answer<Vec<Val>> {
    let (t, s, mut out) = (&table.0, &state.0, [0; 1]);
    // SAFETY: table and state are live and read; the result is live and lent alone.
    let number = unsafe { njn_state_queue_length(t.as_ptr(), t.len(), s.as_ptr(), s.len(), channel, out.as_mut_ptr(), out.len()) };
    let length = answered(number, out[0] as usize)?;
    (0..length).map(|k| queued(table, state, channel, k)).collect()
}

fn queued(table: &SystemTable, state: &StateWords, channel: u32, k: usize) -> Answer<Val> {
    let (t, s, mut out) = (&table.0, &state.0, [0; 3]);
    // SAFETY: table and state are live and read; the result is live and lent alone.
    let number = unsafe { njn_state_queue_value(t.as_ptr(), t.len(), s.as_ptr(), s.len(), channel, k, out.as_mut_ptr(), out.len()) };
    answered(number, value_of(out[1], out[2]))
}

// Where the runs of a state stand (docs/LAYOUT.md): each is one slice of the state's words.
const FIRST_RUN: usize = 1;

/// The run of a graph, which the state has to have.
pub(crate) fn run_of(state: &StateWords, pg: u32) -> Answer<RunWords> {
    let start = FIRST_RUN + njn_run_words() * pg as usize;
    let words = state.0.get(start..start + njn_run_words()).ok_or(32_u32)?;
    Ok(RunWords(words.into()))
}

/// Replays a recording: the number of its records. Refused, it tells the number and what it found.
pub(crate) fn replay(table: &SystemTable, state: &mut StateWords, bytes: &[u8]) -> Result<u64, (u32, [u64; 4])> {
    let (t, s, mut out) = (&table.0, &mut state.0, [0; 4]);
    // SAFETY: table and bytes are live and read; state and result are live, and each is lent alone.
    let number =
        unsafe { njn_state_replay(t.as_ptr(), t.len(), s.as_mut_ptr(), s.len(), bytes.as_ptr(), bytes.len(), out.as_mut_ptr(), out.len()) };
    answered(number, out[0]).map_err(|number| (number, out))
}

/// Record i of a block of a recording is this step. Refused, if there is no record i or the posts are too many.
pub(crate) fn put_step(block: &mut [u8; 512], i: usize, pg: u8, action: u32, posts: &[u16], word: u64, answer: u8) -> Answer<()> {
    // SAFETY: the posts are live and read; the block is live, and lent alone.
    let number = unsafe { njn_block_put_step(block.as_mut_ptr(), block.len(), i, pg, action, posts.as_ptr(), posts.len(), word, answer) };
    answered(number, ())
}

/// Record i of a block of a recording is this wait. Refused, if there is no record i.
pub(crate) fn put_wait(block: &mut [u8; 512], i: usize, delta: u32, answer: u8) -> Answer<()> {
    // SAFETY: the block is live, and lent alone.
    let number = unsafe { njn_block_put_wait(block.as_mut_ptr(), block.len(), i, delta, answer) };
    answered(number, ())
}

/// A block of a recording is number `place`, and has so many records: all its other bytes are written. Refused, if it has no room for so many.
pub(crate) fn seal(block: &mut [u8; 512], place: u32, count: usize) -> Answer<()> {
    // SAFETY: the block is live, and lent alone.
    let number = unsafe { njn_block_seal(block.as_mut_ptr(), block.len(), place, count) };
    answered(number, ())
}

/// The cause of an 8: the process, the first candidate, which sort of part fails (1 the guard, 2 a limit, 3 an invariant; another number says that
/// there is no candidate), its number, and its words.
pub(crate) struct Failing {
    pub(crate) process: u32,
    pub(crate) transition: u32,
    pub(crate) sort: u64,
    pub(crate) number: u32,
    pub(crate) part: Vec<u64>,
}

/// What a plain step would answer; of an 8, the cause. The system lends its own guards and limits.
pub(crate) fn why(
    table: &SystemTable,
    state: &StateWords,
    pg: u32,
    (owner, action): (u32, u32),
    posts: &[(u32, u32)],
    word: u64,
) -> Answer<Option<Failing>> {
    let (t, s, mut out) = (&table.0, &state.0, [0; 6]);
    let (guards, limits, posts) = (table.regions(GUARDS), table.regions(LIMITS), post_words(posts));
    // SAFETY: all slices but the result are live and read; the result is live and lent alone.
    let number = unsafe {
        njn_state_why(
            t.as_ptr(),
            t.len(),
            s.as_ptr(),
            s.len(),
            guards.as_ptr(),
            guards.len(),
            limits.as_ptr(),
            limits.len(),
            pg,
            owner,
            action,
            posts.as_ptr(),
            posts.len(),
            word,
            out.as_mut_ptr(),
            out.len(),
        )
    };
    if number != 8 {
        return answered(number, None);
    }
    let [process, transition, sort, number, start, length] = out;
    let lent = if sort == 1 { &guards } else { &limits };
    let part = lent.iter().skip(start as usize).take(length as usize).copied().collect();
    Ok(Some(Failing { process: process as u32, transition: transition as u32, sort, number: number as u32, part }))
}

/// Words to spoil.
#[cfg(test)]
pub(crate) mod spoil {
    use super::{GraphTable, RunWords, StateWords, SystemTable};

    macro_rules! spoilt {
        ($($words:ident),*) => {
            $(impl $words {
                pub(crate) fn words(&mut self) -> &mut Box<[u64]> {
                    &mut self.0
                }
            })*
        };
    }

    spoilt!(GraphTable, RunWords, SystemTable, StateWords);
}
