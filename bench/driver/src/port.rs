//! The port's side: its archive's exports (bench/exports.rattle), on tables and states that stand here.
//!
//! An export takes a slice as two arguments, its start and its length, and a struct as its address; it writes a struct that it answers
//! with to an address that is handed in first. An answer of two small parts comes back in two registers, and is handed in so.

use crate::counted;
use crate::graphs::{Call, Item, Items, Limit, Op};
use crate::marks::Stretch;

const GRAPH_WORDS: usize = 46_890;
const SYSTEM_WORDS: usize = 375_434;
const RUN_WORDS: usize = 47;
const STATE_WORDS: usize = 1_417;
const RUNS: usize = 1;
const QUEUES: usize = 377;
const QUEUE_WORDS: usize = 130;
const RING: u64 = 64;

/// How many values a channel of the systems has room for: two messages.
pub const CAPACITY: u32 = 4;

struct Slice {
    start: *const u8,
    length: usize,
}

fn slice<T>(of: &[T]) -> Slice {
    Slice {
        start: of.as_ptr().cast(),
        length: of.len(),
    }
}

fn slice_mut<T>(of: &mut [T]) -> Slice {
    Slice {
        start: of.as_mut_ptr().cast(),
        length: of.len(),
    }
}

/// Room for any struct of the port's.
#[repr(C, align(16))]
#[derive(Clone)]
struct Blob([u8; 1024]);

impl Blob {
    fn new() -> Self {
        Blob([0; 1024])
    }
}

type Out = *mut Blob;
type In = *const Blob;
type At<'a> = &'a Slice;

/// Whether a call was accepted, and with what or why not: the lowest byte of each word; what stands above is no part of it.
#[repr(C)]
#[derive(Clone, Copy)]
struct Two(u64, u64);

/// Each export, and a call of it that takes a slice whole.
macro_rules! exports {
    ($(fn $name:ident($($given:ident: $kind:ident),* $(,)?) $(-> $answer:ident)?;)*) => {
        $(export!($name ($($answer)?) [] [] $($given: $kind,)*; $($given: $kind),*);)*
    };
}

macro_rules! export {
    ($name:ident ($($answer:ident)?) [$($taken:ty,)*] [$($handed:expr,)*] $given:ident: At, $($rest:tt)*) => {
        export!($name ($($answer)?) [$($taken,)* *const u8, usize,] [$($handed,)* $given.start, $given.length,] $($rest)*);
    };
    ($name:ident ($($answer:ident)?) [$($taken:ty,)*] [$($handed:expr,)*] $given:ident: $kind:ident, $($rest:tt)*) => {
        export!($name ($($answer)?) [$($taken,)* $kind,] [$($handed,)* $given,] $($rest)*);
    };
    ($name:ident ($($answer:ident)?) [$($taken:ty,)*] [$($handed:expr,)*]; $($given:ident: $kind:ident),*) => {
        #[inline(always)]
        unsafe fn $name($($given: $kind),*) $(-> $answer)? {
            unsafe extern "C" {
                fn $name($(_: $taken),*) $(-> $answer)?;
            }
            unsafe { $name($($handed),*) }
        }
    };
}

exports! {
    fn bench_done_number(done: Two) -> u32;
    fn bench_held_number(held: Two) -> u32;
    fn bench_listed_words(listed: In, out: At);
    fn bench_fresh_number(fresh: In) -> u32;
    fn bench_fresh_run(out: Out, fresh: In);
    fn bench_sent_words(sent: In, out: At) -> u32;
    fn bench_run_words(run: In, out: At);
    fn bench_message_of(out: Out, x: i32, y: i32);
    fn bench_told_words(told: In, out: At) -> u32;
    fn bench_waited_number(waited: In) -> u32;
    fn bench_all_listed_words(listed: In, out: At);

    fn bench_e_evaluate(out: Out, items: At, n: i32, word: u64);
    fn bench_e_type(items: At, kinds: At) -> u32;

    fn bench_g_new(t: At) -> u32;
    fn bench_g_clock(t: At) -> u32;
    fn bench_g_var(t: At, n: i32) -> u32;
    fn bench_g_action(t: At) -> u32;
    fn bench_g_initial(t: At) -> u32;
    fn bench_g_location(t: At, kind: u32, time: u32) -> u32;
    fn bench_g_effect(t: At, a: u32, v: u32, items: At) -> u32;
    fn bench_g_reset(t: At, a: u32, c: u32) -> u32;
    fn bench_g_send(t: At, x: At, y: At) -> u32;
    fn bench_g_receive(t: At, v: u32, w: u32) -> u32;
    fn bench_g_transition(
        t: At,
        pre: u32,
        a: u32,
        post: u32,
        guarded: bool,
        guard: At,
        kind: u32,
        time: u32,
    ) -> u32;
    fn bench_g_build(t: At) -> u32;

    fn bench_s_new(t: At) -> u32;
    fn bench_s_graph(t: At) -> u32;
    fn bench_s_channel(t: At, capacity: u32) -> u32;
    fn bench_s_clock(t: At, g: u32) -> u32;
    fn bench_s_var(t: At, g: u32, n: i32) -> u32;
    fn bench_s_action(t: At, g: u32) -> u32;
    fn bench_s_initial(t: At, g: u32) -> u32;
    fn bench_s_location(t: At, g: u32, kind: u32, time: u32) -> u32;
    fn bench_s_effect(t: At, g: u32, a: u32, v: u32, items: At) -> u32;
    fn bench_s_reset(t: At, g: u32, a: u32, c: u32) -> u32;
    fn bench_s_send(t: At, g: u32, q: u32, x: At, y: At) -> u32;
    fn bench_s_receive(t: At, g: u32, q: u32, v: u32, w: u32) -> u32;
    fn bench_s_transition(
        t: At,
        g: u32,
        pre: u32,
        a: u32,
        post: u32,
        guarded: bool,
        guard: At,
        kind: u32,
        time: u32,
    ) -> u32;
    fn bench_s_build(t: At) -> u32;

    fn bench_p_formed(t: At) -> bool;
    fn bench_p_fits(t: At, run: In) -> bool;
    fn bench_p_new(out: Out, t: At);
    fn bench_p_step(run: Out, t: At, a: u32, posts: At) -> Two;
    fn bench_p_send(out: Out, run: Out, t: At, a: u32, posts: At);
    fn bench_p_receive(run: Out, t: At, a: u32, posts: At, message: In) -> Two;
    fn bench_p_wait(run: Out, t: At, delta: u32) -> Two;
    fn bench_p_can_wait(run: In, t: At, delta: u32) -> Two;
    fn bench_p_is_waiting(run: In, t: At) -> Two;
    fn bench_p_listed(out: Out, run: In, t: At, k: usize);

    fn bench_i_new(t: At, r: At);
    fn bench_i_step(t: At, r: At, a: u32, posts: At) -> Two;
    fn bench_i_send(out: Out, t: At, r: At, a: u32, posts: At);
    fn bench_i_receive(t: At, r: At, a: u32, posts: At, message: In) -> Two;
    fn bench_i_wait(t: At, r: At, delta: u32) -> Two;
    fn bench_i_can_wait(t: At, r: At, delta: u32) -> bool;
    fn bench_i_is_waiting(t: At, r: At) -> bool;
    fn bench_i_listed(out: Out, t: At, r: At, k: usize);

    fn bench_t_fits(t: At, s: At) -> bool;
    fn bench_t_new(t: At, s: At) -> Two;
    fn bench_t_step(out: Out, t: At, s: At, g: u32, a: u32, posts: At);
    fn bench_t_wait(out: Out, t: At, s: At, delta: u32);
    fn bench_t_can_wait(t: At, s: At, delta: u32) -> Two;
    fn bench_t_is_waiting(t: At, s: At) -> Two;
    fn bench_t_listed(out: Out, t: At, s: At, k: usize);

    fn bench_u_step(out: Out, t: At, s: At, g: u32, a: u32, posts: At);
    fn bench_u_wait(out: Out, t: At, s: At, delta: u32);
    fn bench_u_can_wait(t: At, s: At, delta: u32) -> bool;
    fn bench_u_is_waiting(t: At, s: At) -> bool;
    fn bench_u_listed(out: Out, t: At, s: At, k: usize);
}

// ---- building

fn item_word(item: Item) -> u64 {
    match item {
        Item::Var(v) => u64::from(v) * 256 + 16,
        Item::Number(n) => u64::from(n as u32) * 256 + 15,
        Item::Add => 5,
        Item::Less => 11,
    }
}

fn words(items: &Items) -> [u64; 3] {
    items.map(item_word)
}

// ---- expressions

/// Evaluates an expression over variables that are all 1, and finds its kind.
#[inline(never)]
#[unsafe(link_section = "driver_calls")]
pub fn expression(items: &[Item], evaluating: &Stretch, typing: &Stretch) {
    let words: Vec<u64> = items.iter().copied().map(item_word).collect();
    let items = &slice(&words);
    let kinds = [1u64; 16];
    let kinds = &slice(&kinds);
    let out = &mut Blob::new();
    unsafe {
        counted!(evaluating, "public", bench_e_evaluate(out, items, 1, 0));
        let refused = counted!(typing, "public", bench_e_type(items, kinds));
        assert!(refused == 0 || words.is_empty());
    }
}

fn limit(limit: Limit) -> (u32, u32) {
    match limit {
        Limit::None => (0, 0),
        Limit::From(time) => (1, time),
        Limit::To(time) => (2, time),
    }
}

/// The building calls with their expressions in words.
enum Ready {
    Plain(Op),
    Effect(u32, u32, [u64; 3]),
    Send([u64; 3], [u64; 3]),
    Transition(u32, u32, u32, bool, [u64; 3], (u32, u32)),
}

fn ready(op: &Op) -> Ready {
    match op {
        Op::Effect(a, v, items) => Ready::Effect(*a, *v, words(items)),
        Op::Send(x, y) => Ready::Send(words(x), words(y)),
        Op::Transition(pre, a, post, guard, within) => Ready::Transition(
            *pre,
            *a,
            *post,
            guard.is_some(),
            guard.as_ref().map_or([0; 3], words),
            limit(*within),
        ),
        _ => Ready::Plain(*op),
    }
}

/// A table of words that the port has built.
pub struct Table {
    words: Vec<u64>,
}

impl Table {
    #[inline(never)]
    #[unsafe(link_section = "driver_calls")]
    pub fn graph(ops: &[Op], stretch: &Stretch) -> Self {
        let mut words = vec![0; GRAPH_WORDS];
        let calls: Vec<Ready> = ops.iter().map(ready).collect();
        let t = slice_mut(&mut words);
        // Every export is handed slices that stand here, and tables that it tests itself.
        let refused = unsafe { counted!(stretch, "public", graph_calls(&t, &calls)) };
        assert_eq!(refused, 0, "the port refuses to build a graph");
        Table { words }
    }

    #[inline(never)]
    #[unsafe(link_section = "driver_calls")]
    pub fn system(ops: &[Op], graphs: usize, stretch: &Stretch) -> Self {
        let mut words = vec![0; SYSTEM_WORDS];
        let calls: Vec<Ready> = ops.iter().map(ready).collect();
        let t = slice_mut(&mut words);
        let refused =
            unsafe { counted!(stretch, "public", system_calls(&t, &calls, graphs as u32)) };
        assert_eq!(refused, 0, "the port refuses to build a system");
        Table { words }
    }

    /// How many words of a graph's table say something (docs/LAYOUT.md).
    fn used_by_graph(t: &[u64]) -> u64 {
        let locations: u64 = t[42..][..t[2] as usize].iter().map(|n| 1 + 3 * n).sum();
        let actions: u64 = t[74..]
            .chunks(51)
            .take(t[3] as usize)
            .map(used_by_action)
            .sum();
        let transitions: u64 = t[1706..]
            .chunks(3)
            .take(t[5] as usize)
            .map(|k| 3 + k[1] + 3 * k[2])
            .sum();
        6 + 2 * t[0] + t[4] + locations + actions + transitions
    }

    /// The same of the table of a graph, or of a system: its counts, its channels, and of each graph its actions' entries and its words.
    pub fn used(&self) -> u64 {
        let t = &self.words;
        if t.len() == GRAPH_WORDS {
            return Self::used_by_graph(t);
        }
        let channels: u64 = t[2..]
            .chunks(7)
            .take(t[1] as usize)
            .map(|q| 2 + q[0] + u64::from(q[5] == 0))
            .sum();
        let graphs: u64 = t[58..]
            .chunks(46_922)
            .take(t[0] as usize)
            .map(|g| g[32 + 3] + Self::used_by_graph(&g[32..]))
            .sum();
        2 + channels + graphs
    }

    #[inline(never)]
    #[unsafe(link_section = "driver_calls")]
    pub fn formed(&self, stretch: &Stretch) {
        let t = slice(&self.words);
        assert!(unsafe { counted!(stretch, "public", bench_p_formed(&t)) });
    }
}

/// An effect has a variable, a length and its items, an expression that is sent the last two, a value that is received a variable.
fn used_by_action(action: &[u64]) -> u64 {
    let [kind, resets, count] = [action[0], action[1], action[2]];
    let items: u64 = action[35..][..count as usize].iter().sum();
    3 + resets
        + match kind {
            0 => 2 * count + items,
            1 => count + items,
            _ => count,
        }
}

/// All numbers of answers, or'ed: 0 if each call was accepted.
#[inline(never)]
unsafe fn graph_calls(t: &Slice, calls: &[Ready]) -> u32 {
    unsafe {
        let mut refused = bench_g_new(t);
        for call in calls {
            refused |= match call {
                Ready::Plain(Op::Clock) => bench_g_clock(t),
                Ready::Plain(Op::Var(n)) => bench_g_var(t, *n),
                Ready::Plain(Op::Action) => bench_g_action(t),
                Ready::Plain(Op::Initial) => bench_g_initial(t),
                Ready::Plain(Op::Location(within)) => {
                    let (kind, time) = limit(*within);
                    bench_g_location(t, kind, time)
                }
                Ready::Plain(Op::Reset(a, c)) => bench_g_reset(t, *a, *c),
                Ready::Plain(Op::Receive(v, w)) => bench_g_receive(t, *v, *w),
                Ready::Plain(_) => unreachable!(),
                Ready::Effect(a, v, items) => bench_g_effect(t, *a, *v, &slice(items)),
                Ready::Send(x, y) => bench_g_send(t, &slice(x), &slice(y)),
                Ready::Transition(pre, a, post, guarded, guard, (kind, time)) => {
                    bench_g_transition(t, *pre, *a, *post, *guarded, &slice(guard), *kind, *time)
                }
            };
        }
        refused | bench_g_build(t)
    }
}

#[inline(never)]
unsafe fn system_calls(t: &Slice, calls: &[Ready], graphs: u32) -> u32 {
    unsafe {
        let mut refused = bench_s_new(t);
        for g in 0..graphs {
            refused |= bench_s_graph(t);
            refused |= bench_s_channel(t, CAPACITY);
            for call in calls {
                refused |= match call {
                    Ready::Plain(Op::Clock) => bench_s_clock(t, g),
                    Ready::Plain(Op::Var(n)) => bench_s_var(t, g, *n),
                    Ready::Plain(Op::Action) => bench_s_action(t, g),
                    Ready::Plain(Op::Initial) => bench_s_initial(t, g),
                    Ready::Plain(Op::Location(within)) => {
                        let (kind, time) = limit(*within);
                        bench_s_location(t, g, kind, time)
                    }
                    Ready::Plain(Op::Reset(a, c)) => bench_s_reset(t, g, *a, *c),
                    Ready::Plain(Op::Receive(v, w)) => bench_s_receive(t, g, g, *v, *w),
                    Ready::Plain(_) => unreachable!(),
                    Ready::Effect(a, v, items) => bench_s_effect(t, g, *a, *v, &slice(items)),
                    Ready::Send(x, y) => bench_s_send(t, g, g, &slice(x), &slice(y)),
                    Ready::Transition(pre, a, post, guarded, guard, (kind, time)) => {
                        bench_s_transition(
                            t,
                            g,
                            *pre,
                            *a,
                            *post,
                            *guarded,
                            &slice(guard),
                            *kind,
                            *time,
                        )
                    }
                };
            }
        }
        refused | bench_s_build(t)
    }
}

// ---- one graph

/// Where the processes are, the values of the variables and the times of the clocks, from a run's words.
fn run_state(r: &[u64]) -> Vec<u64> {
    let mut state = r[3..3 + r[0] as usize].to_vec();
    state.extend((0..r[1] as usize).map(|v| r[7 + 2 * v + 1]));
    state.extend(&r[39..39 + r[2] as usize]);
    state
}

fn message(values: [i32; 2]) -> Blob {
    let mut blob = Blob::new();
    unsafe { bench_message_of(&mut blob, values[0], values[1]) };
    blob
}

/// The number of an answer, and the values that were sent.
fn with_values(number: u32, values: &[u64]) -> Vec<u64> {
    let mut answer = vec![u64::from(number)];
    answer.extend(&values[1..1 + values[0] as usize]);
    answer
}

/// A run in lent words, on which inner calls are made.
pub struct InnerRun<'t> {
    table: &'t Table,
    words: [u64; RUN_WORDS],
}

impl<'t> InnerRun<'t> {
    pub fn new(table: &'t Table) -> Self {
        let mut words = [0; RUN_WORDS];
        unsafe { bench_i_new(&slice(&table.words), &slice_mut(&mut words)) };
        InnerRun { table, words }
    }

    pub fn state(&self) -> Vec<u64> {
        run_state(&self.words)
    }

    /// An inner call asks for a table and a run that fit: these were built and made by calls.
    #[inline(never)]
    #[unsafe(link_section = "driver_calls")]
    pub fn call(&mut self, call: Call, stretch: &Stretch) -> Vec<u64> {
        let t = &slice(&self.table.words);
        let r = &slice_mut(&mut self.words);
        let out = &mut Blob::new();
        let mut words = [0; 8];
        unsafe {
            match call {
                Call::Step(a, post) => {
                    let posts = [post];
                    let posts = &slice(&posts);
                    let done = counted!(stretch, "inner", bench_i_step(t, r, a, posts));
                    vec![bench_done_number(done).into()]
                }
                Call::Send(a, post) => {
                    let posts = [post];
                    let posts = &slice(&posts);
                    counted!(stretch, "inner", bench_i_send(out, t, r, a, posts));
                    let number = bench_sent_words(out, &slice_mut(&mut words));
                    with_values(number, &words)
                }
                Call::Receive(a, post, values) => {
                    let posts = [post];
                    let posts = &slice(&posts);
                    let message = &message(values);
                    let done = counted!(stretch, "inner", bench_i_receive(t, r, a, posts, message));
                    vec![bench_done_number(done).into()]
                }
                Call::Wait(delta) => {
                    let done = counted!(stretch, "inner", bench_i_wait(t, r, delta));
                    vec![bench_done_number(done).into()]
                }
                Call::CanWait(delta) => {
                    vec![counted!(stretch, "inner", bench_i_can_wait(t, r, delta)).into()]
                }
                Call::IsWaiting => {
                    vec![counted!(stretch, "inner", bench_i_is_waiting(t, r)).into()]
                }
                Call::First => {
                    counted!(stretch, "inner", bench_i_listed(out, t, r, 0));
                    bench_listed_words(out, &slice_mut(&mut words));
                    words[..4].to_vec()
                }
                Call::Whole(entries) => {
                    let mut outs = vec![Blob::new(); entries + 1];
                    counted!(stretch, "inner", k of outs.len(), bench_i_listed(&mut outs[k], t, r, k));
                    entries_of(&outs)
                }
            }
        }
    }
}

/// How many entries, and each; the last is the end.
fn entries_of(outs: &[Blob]) -> Vec<u64> {
    let mut answer = vec![0];
    for out in outs {
        let mut words = [0; 8];
        unsafe { bench_listed_words(out, &slice_mut(&mut words)) };
        if words[0] == 1 {
            answer[0] += 1;
            answer.extend(&words[1..4]);
        }
    }
    answer
}

/// A run as a value, which public calls are handed, those that move it to change.
pub struct PublicRun<'t> {
    table: &'t Table,
    run: Blob,
}

impl<'t> PublicRun<'t> {
    #[inline(never)]
    #[unsafe(link_section = "driver_calls")]
    pub fn new(table: &'t Table, stretch: &Stretch) -> Self {
        let t = &slice(&table.words);
        let mut out = Blob::new();
        let mut run = Blob::new();
        unsafe {
            counted!(stretch, "public", bench_p_new(&mut out, t));
            assert_eq!(bench_fresh_number(&out), 0);
            bench_fresh_run(&mut run, &out);
        }
        PublicRun { table, run }
    }

    pub fn state(&self) -> Vec<u64> {
        let mut words = [0; RUN_WORDS];
        unsafe { bench_run_words(&self.run.clone(), &slice_mut(&mut words)) };
        run_state(&words)
    }

    /// The test behind 32.
    #[inline(never)]
    #[unsafe(link_section = "driver_calls")]
    pub fn fits(&self, stretch: &Stretch) {
        let t = &slice(&self.table.words);
        let run = &self.run.clone();
        assert!(unsafe { counted!(stretch, "public", bench_p_fits(t, run)) });
    }

    #[inline(never)]
    #[unsafe(link_section = "driver_calls")]
    pub fn call(&mut self, call: Call, stretch: &Stretch) -> Vec<u64> {
        let t = &slice(&self.table.words);
        let run = &mut self.run;
        let out = &mut Blob::new();
        let mut words = [0; 8];
        unsafe {
            match call {
                Call::Step(a, post) => {
                    let posts = [post];
                    let posts = &slice(&posts);
                    let done = counted!(stretch, "public", bench_p_step(run, t, a, posts));
                    vec![bench_done_number(done).into()]
                }
                Call::Send(a, post) => {
                    let posts = [post];
                    let posts = &slice(&posts);
                    counted!(stretch, "public", bench_p_send(out, run, t, a, posts));
                    let number = bench_sent_words(out, &slice_mut(&mut words));
                    with_values(number, &words)
                }
                Call::Receive(a, post, values) => {
                    let posts = [post];
                    let posts = &slice(&posts);
                    let message = &message(values);
                    let done = counted!(
                        stretch,
                        "public",
                        bench_p_receive(run, t, a, posts, message)
                    );
                    vec![bench_done_number(done).into()]
                }
                Call::Wait(delta) => {
                    let done = counted!(stretch, "public", bench_p_wait(run, t, delta));
                    vec![bench_done_number(done).into()]
                }
                Call::CanWait(delta) => {
                    let held = counted!(stretch, "public", bench_p_can_wait(run, t, delta));
                    vec![bench_held_number(held).into()]
                }
                Call::IsWaiting => {
                    let held = counted!(stretch, "public", bench_p_is_waiting(run, t));
                    vec![bench_held_number(held).into()]
                }
                Call::First => {
                    counted!(stretch, "public", bench_p_listed(out, run, t, 0));
                    bench_listed_words(out, &slice_mut(&mut words));
                    words[..4].to_vec()
                }
                Call::Whole(entries) => {
                    let mut outs = vec![Blob::new(); entries + 1];
                    let runs = vec![run.clone(); entries + 1];
                    counted!(stretch, "public", k of outs.len(), bench_p_listed(&mut outs[k], &runs[k], t, k));
                    entries_of(&outs)
                }
            }
        }
    }
}

// ---- a system

/// A state in lent words, on which public calls are made, or inner ones.
pub struct State<'t> {
    table: &'t Table,
    words: Vec<u64>,
    public: bool,
}

impl<'t> State<'t> {
    #[inline(never)]
    #[unsafe(link_section = "driver_calls")]
    pub fn new(table: &'t Table, public: bool, stretch: &Stretch) -> Self {
        let mut words = vec![0; STATE_WORDS];
        let t = &slice(&table.words);
        let s = &slice_mut(&mut words);
        unsafe {
            let done = counted!(stretch, "public", bench_t_new(t, s));
            assert_eq!(bench_done_number(done), 0);
        }
        State {
            table,
            words,
            public,
        }
    }

    /// How many words of the state say something.
    pub fn used(&self) -> u64 {
        let t = &self.table.words;
        let runs: u64 = self.words[RUNS..]
            .chunks(RUN_WORDS)
            .take(t[0] as usize)
            .map(|r| 3 + r[0] + 2 * r[1] + r[2])
            .sum();
        let queues: u64 = self.words[QUEUES..]
            .chunks(QUEUE_WORDS)
            .take(t[1] as usize)
            .map(|q| 2 + 2 * (q[1] - q[0]))
            .sum();
        1 + runs + queues
    }

    /// The time, then of each graph its run and of each channel the values that are stored.
    pub fn state(&self) -> Vec<u64> {
        let t = &self.table.words;
        let mut state = vec![self.words[0]];
        for g in 0..t[0] as usize {
            let start = RUNS + RUN_WORDS * g;
            state.extend(run_state(&self.words[start..start + RUN_WORDS]));
        }
        for q in 0..t[1] as usize {
            let queue = &self.words[QUEUES + QUEUE_WORDS * q..][..QUEUE_WORDS];
            state.push(queue[1] - queue[0]);
            state.extend((queue[0]..queue[1]).map(|n| queue[(2 + 2 * (n % RING) + 1) as usize]));
        }
        state
    }

    #[inline(never)]
    #[unsafe(link_section = "driver_calls")]
    pub fn fits(&self, stretch: &Stretch) {
        let t = &slice(&self.table.words);
        let s = &slice(&self.words);
        assert!(unsafe { counted!(stretch, "public", bench_t_fits(t, s)) });
    }

    #[inline(never)]
    #[unsafe(link_section = "driver_calls")]
    pub fn call(&mut self, graph: usize, call: Call, stretch: &Stretch) -> Vec<u64> {
        let public = self.public;
        let t = &slice(&self.table.words);
        let s = &slice_mut(&mut self.words);
        let g = graph as u32;
        let out = &mut Blob::new();
        let mut words = [0; 8];
        unsafe {
            match call {
                Call::Step(a, post) => {
                    let posts = [u64::from(g) << 32 | u64::from(post)];
                    let posts = &slice(&posts);
                    if public {
                        counted!(stretch, "public", bench_t_step(out, t, s, g, a, posts));
                    } else {
                        counted!(stretch, "inner", bench_u_step(out, t, s, g, a, posts));
                    }
                    let number = bench_told_words(out, &slice_mut(&mut words));
                    let mut answer = vec![number.into(), words[0], words[1]];
                    answer.extend(&words[3..3 + words[2] as usize]);
                    answer
                }
                Call::Wait(delta) => {
                    if public {
                        counted!(stretch, "public", bench_t_wait(out, t, s, delta));
                    } else {
                        counted!(stretch, "inner", bench_u_wait(out, t, s, delta));
                    }
                    vec![bench_waited_number(out).into()]
                }
                Call::CanWait(delta) => {
                    if !public {
                        return vec![
                            counted!(stretch, "inner", bench_u_can_wait(t, s, delta)).into(),
                        ];
                    }
                    let held = counted!(stretch, "public", bench_t_can_wait(t, s, delta));
                    vec![bench_held_number(held).into()]
                }
                Call::IsWaiting => {
                    if !public {
                        return vec![counted!(stretch, "inner", bench_u_is_waiting(t, s)).into()];
                    }
                    let held = counted!(stretch, "public", bench_t_is_waiting(t, s));
                    vec![bench_held_number(held).into()]
                }
                Call::First => {
                    if public {
                        counted!(stretch, "public", bench_t_listed(out, t, s, 0));
                    } else {
                        counted!(stretch, "inner", bench_u_listed(out, t, s, 0));
                    }
                    bench_all_listed_words(out, &slice_mut(&mut words));
                    words[..5].to_vec()
                }
                Call::Whole(entries) => {
                    let mut outs = vec![Blob::new(); entries + 1];
                    if public {
                        counted!(stretch, "public", k of outs.len(), bench_t_listed(&mut outs[k], t, s, k));
                    } else {
                        counted!(stretch, "inner", k of outs.len(), bench_u_listed(&mut outs[k], t, s, k));
                    }
                    all_entries_of(&outs)
                }
                Call::Send(..) | Call::Receive(..) => unreachable!("a system has steps alone"),
            }
        }
    }
}

fn all_entries_of(outs: &[Blob]) -> Vec<u64> {
    let mut answer = vec![0];
    for out in outs {
        let mut words = [0; 8];
        unsafe { bench_all_listed_words(out, &slice_mut(&mut words)) };
        if words[0] == 1 {
            answer[0] += 1;
            answer.extend(&words[1..5]);
        }
    }
    answer
}
