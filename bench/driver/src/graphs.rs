//! The graphs that are built on both sides, as lists of building calls, and the calls that are made on them.

#[derive(Clone, Copy)]
pub enum Item {
    Var(u32),
    Number(i32),
    Add,
    Less,
}

pub type Items = [Item; 3];

#[derive(Clone, Copy)]
pub enum Limit {
    None,
    From(u32),
    To(u32),
}

/// A building call. The channel of a send or a receive is the one with its graph's number.
#[derive(Clone, Copy)]
pub enum Op {
    Clock,
    Var(i32),
    Action,
    Initial,
    Location(Limit),
    Effect(u32, u32, Items),
    Reset(u32, u32),
    Send(Items, Items),
    Receive(u32, u32),
    Transition(u32, u32, u32, Option<Items>, Limit),
}

pub const EPSILON: u32 = u32::MAX;

/// v0 below a number.
fn below(number: i32) -> Option<Items> {
    Some([Item::Var(0), Item::Number(number), Item::Less])
}

/// A variable and a number more.
fn more(var: u32, number: i32) -> Items {
    [Item::Var(var), Item::Number(number), Item::Add]
}

/// Where in its table a graph is stepped: at its first locations, whose transitions stand first, or at its last.
#[derive(Clone, Copy, PartialEq)]
pub enum End {
    First,
    Last,
}

impl End {
    /// The number of a place of the ring, and the place of a number.
    fn number(self, ring: u32, place: u32) -> u32 {
        match self {
            End::First => place,
            End::Last => ring - 1 - place,
        }
    }
}

fn ring_of(transitions: usize) -> u32 {
    if transitions == 2 {
        2
    } else {
        transitions as u32 / 4
    }
}

/// The runner's graph where there are two transitions, but for its guard, which lets more than two steps pass: L0, and L1 with
/// c0 <= 5; A0 makes v0 one more and sets c0 back, and leads from L0 to L1; EPSILON leads back if c0 >= 3. With n transitions there are
/// n / 4 such locations in a ring, and each has four: A0 onward, EPSILON back, and two more whose guards are false after the first
/// step.
pub fn stepping(transitions: usize, end: End) -> Vec<Op> {
    let small = transitions == 2;
    let ring = ring_of(transitions);
    let at = |place| end.number(ring, place % ring);
    let mut ops = vec![Op::Clock, Op::Var(0)];
    for l in 0..ring {
        ops.push(match end.number(ring, l) {
            0 => Op::Initial,
            place if place % 2 == 1 => Op::Location(Limit::To(5)),
            _ => Op::Location(Limit::None),
        });
    }
    ops.extend([Op::Action, Op::Effect(0, 0, more(0, 1)), Op::Reset(0, 0)]);
    if small {
        ops.push(Op::Transition(at(0), 0, at(1), below(1000), Limit::None));
        ops.push(Op::Transition(at(1), EPSILON, at(0), None, Limit::From(3)));
        return ops;
    }
    ops.extend([Op::Action, Op::Action]);
    for l in 0..ring {
        ops.push(Op::Transition(
            at(l),
            0,
            at(l + 1),
            below(1000),
            Limit::None,
        ));
        ops.push(Op::Transition(at(l), 1, at(l), below(1), Limit::None));
        ops.push(Op::Transition(at(l), 2, at(l), below(0), Limit::To(100)));
        ops.push(Op::Transition(
            at(l),
            EPSILON,
            at(l + ring - 1),
            None,
            Limit::From(3),
        ));
    }
    ops
}

/// A graph that talks: where there are two transitions, one location with a send of v0 + 1 and v1 + 2 (A0) and a receive into v0 and v1
/// with a guard (A1). With n transitions there are n / 4 such locations, and in each a plain step to the next and EPSILON with a
/// limit beside them.
pub fn talking(transitions: usize) -> Vec<Op> {
    let small = transitions == 2;
    let ring = if small { 1 } else { transitions as u32 / 4 };
    let mut ops = vec![Op::Clock, Op::Var(0), Op::Var(0), Op::Initial];
    for _ in 1..ring {
        ops.push(Op::Location(Limit::None));
    }
    ops.extend([Op::Send(more(0, 1), more(1, 2)), Op::Receive(0, 1)]);
    if !small {
        ops.push(Op::Action);
    }
    for l in 0..ring {
        ops.push(Op::Transition(l, 0, l, None, Limit::None));
        ops.push(Op::Transition(l, 1, l, below(1000), Limit::None));
        if !small {
            ops.push(Op::Transition(
                l,
                2,
                (l + 1) % ring,
                below(1000),
                Limit::None,
            ));
            ops.push(Op::Transition(l, EPSILON, l, None, Limit::From(100)));
        }
    }
    ops
}

#[derive(Clone, Copy)]
pub enum Call {
    Step(u32, u32),
    Send(u32, u32),
    Receive(u32, u32, [i32; 2]),
    Wait(u32),
    CanWait(u32),
    IsWaiting,
    /// Entry 0 of the list.
    First,
    /// All entries, so many, and the end.
    Whole(usize),
}

/// A call, of a graph where it is a step, with the row of the table that it is counted for and what it answers first. Without a name it
/// only leads on.
pub struct Line {
    pub row: &'static str,
    pub graph: usize,
    pub call: Call,
    pub answer: u64,
}

fn line(row: &'static str, graph: usize, call: Call, answer: u64) -> Line {
    Line {
        row,
        graph,
        call,
        answer,
    }
}

/// One time around the graph that steps, or around so many of them: all step, all wait, all step back. Steps of the last graph are
/// counted.
pub fn around(graphs: usize, transitions: usize, end: End) -> Vec<Line> {
    let last = graphs - 1;
    let entries = graphs * if transitions == 2 { 1 } else { 2 };
    let [start, next] = [0, 1].map(|place| end.number(ring_of(transitions), place));
    let mut lines = vec![
        line("listing, first entry", 0, Call::First, 1),
        line(
            "listing, all entries and the end",
            0,
            Call::Whole(entries),
            entries as u64,
        ),
    ];
    for g in 0..last {
        lines.push(line("", g, Call::Step(0, next), 0));
    }
    lines.extend([
        line("step", last, Call::Step(0, next), 0),
        line("refused 8, no candidate", last, Call::Step(0, next), 8),
        line("refused 8, by a limit", last, Call::Step(EPSILON, start), 8),
        line("`is_waiting`, yes", 0, Call::IsWaiting, 1),
        line("`can_wait`", 0, Call::CanWait(5), 1),
        line("wait, with an invariant", 0, Call::Wait(3), 0),
        line("`is_waiting`, no", 0, Call::IsWaiting, 0),
        line("wait refused 9", 0, Call::Wait(6), 9),
    ]);
    for g in 0..last {
        lines.push(line("", g, Call::Step(EPSILON, start), 0));
    }
    lines.extend([
        line("step by EPSILON", last, Call::Step(EPSILON, start), 0),
        line("wait, without", 0, Call::Wait(2), 0),
    ]);
    lines
}

/// What the graph that talks does on its own: a send, and a receive of what is handed in.
pub fn spoken() -> Vec<Line> {
    vec![
        line("send", 0, Call::Send(0, 0), 0),
        line("receive", 0, Call::Receive(1, 0, [7, 8]), 0),
    ]
}

/// Messages over the queue of the last graph, which has room for two of them.
pub fn queued(graphs: usize) -> Vec<Line> {
    let last = graphs - 1;
    vec![
        line("send", last, Call::Step(0, 0), 0),
        line("", last, Call::Step(0, 0), 0),
        line("refused 20, a full queue", last, Call::Step(0, 0), 20),
        line("receive", last, Call::Step(1, 0), 0),
        line("", last, Call::Step(1, 0), 0),
        line("refused 21, an empty queue", last, Call::Step(1, 0), 21),
    ]
}

/// Expressions of no item, of 1, 3 and 7.
pub const EXPRESSIONS: [(&str, &[Item]); 4] = [
    ("none", &[]),
    ("`#5`", &[Item::Number(5)]),
    ("`v0 #2 <`", &[Item::Var(0), Item::Number(2), Item::Less]),
    (
        "`v0 #1 + v1 #2 + <`",
        &[
            Item::Var(0),
            Item::Number(1),
            Item::Add,
            Item::Var(1),
            Item::Number(2),
            Item::Add,
            Item::Less,
        ],
    ),
];
