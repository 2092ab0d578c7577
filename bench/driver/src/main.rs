//! Makes the same calls on the port and on the Rust, one beside the other, and has each counted (src/marks.rs). After each call the
//! answers and all that the states hold have to be equal: a call of which that is not so ends the program.
//!
//! Each script is gone through three times, and the third counts: by then nothing is done for the first time.

mod graphs;
mod marks;
mod port;
#[cfg(feature = "rust")]
mod rust;

use graphs::{EXPRESSIONS, End, Line, Op, around, queued, spoken, stepping, talking};
use marks::Stretch;

const PASSES: usize = 3;
const SIZES: [usize; 4] = [2, 8, 32, 128];
const GRAPHS: [usize; 4] = [1, 2, 4, 8];
const FOUR: usize = 4;
const SMALL: usize = 2;
const LARGE: usize = 128;
const ENDS: [(End, &str); 2] = [(End::First, "steps"), (End::Last, "steps at the end")];

fn compare(side: &str, stretch: &Stretch, got: (&[u64], Vec<u64>), wanted: (&[u64], Vec<u64>)) {
    if got.0 != wanted.0 || got.1 != wanted.1 {
        let Stretch {
            layer,
            family,
            graphs,
            transitions,
            row,
            ..
        } = stretch;
        eprintln!(
            "{layer} that {family}, {graphs} of {transitions} transitions, {row:?}: {side} differs"
        );
        eprintln!(
            "answer {:?} and state {:?}, not {:?} and {:?}",
            got.0, got.1, wanted.0, wanted.1
        );
        std::process::exit(1);
    }
}

fn expect(line: &Line, stretch: &Stretch, answer: &[u64]) {
    let Stretch { transitions, .. } = stretch;
    assert_eq!(
        answer[0], line.answer,
        "{} of {transitions} transitions",
        line.row
    );
}

/// One graph, by the calls on a graph.
fn one_graph(ops: &[Op], lines: &[Line], transitions: usize, family: &str) {
    let stretch = |row, pass| Stretch {
        layer: "graph",
        family,
        graphs: 1,
        transitions,
        row,
        pass,
    };
    for pass in 0..PASSES - 1 {
        port::Table::graph(ops, &stretch("building", pass));
        #[cfg(feature = "rust")]
        rust::graph(ops, &stretch("building", pass));
    }
    let table = port::Table::graph(ops, &stretch("building", PASSES - 1));
    table.formed(&stretch("test of the table", PASSES - 1));
    tell_used(&stretch("test of the table", PASSES - 1), table.used());
    #[cfg(feature = "rust")]
    let graph = rust::graph(ops, &stretch("building", PASSES - 1));
    #[cfg(feature = "rust")]
    for pass in 0..PASSES - 1 {
        rust::Run::new(&graph, &stretch("new", pass));
    }
    let mut inner = port::InnerRun::new(&table);
    let mut public = port::PublicRun::new(&table, &stretch("new", PASSES - 1));
    #[cfg(feature = "rust")]
    let mut rust = rust::Run::new(&graph, &stretch("new", PASSES - 1));
    public.fits(&stretch("test behind 32", PASSES - 1));
    for pass in 0..PASSES {
        for line in lines {
            let stretch = &stretch(line.row, pass);
            let answer = inner.call(line.call, stretch);
            expect(line, stretch, &answer);
            let same = public.call(line.call, stretch);
            compare(
                "the public call",
                stretch,
                (&same, public.state()),
                (&answer, inner.state()),
            );
            #[cfg(feature = "rust")]
            {
                let same = rust.call(line.call, stretch);
                compare(
                    "the Rust",
                    stretch,
                    (&same, rust.state()),
                    (&answer, inner.state()),
                );
            }
        }
    }
}

/// So many graphs, by the calls on a system.
fn system(ops: &[Op], lines: &[Line], graphs: usize, transitions: usize, family: &str) {
    let stretch = |row, pass| Stretch {
        layer: "system",
        family,
        graphs,
        transitions,
        row,
        pass,
    };
    let table = port::Table::system(ops, graphs, &stretch("building", PASSES - 1));
    #[cfg(feature = "rust")]
    let definition = rust::system(ops, graphs);
    #[cfg(feature = "rust")]
    for pass in 0..PASSES - 1 {
        rust::State::new(&definition, &stretch("new", pass));
    }
    let mut inner = port::State::new(&table, false, &stretch("", PASSES - 1));
    let mut public = port::State::new(&table, true, &stretch("new", PASSES - 1));
    #[cfg(feature = "rust")]
    let mut rust = rust::State::new(&definition, &stretch("new", PASSES - 1));
    public.fits(&stretch("test behind 32", PASSES - 1));
    tell_used(
        &stretch("test behind 32", PASSES - 1),
        table.used() + public.used(),
    );
    for pass in 0..PASSES {
        for line in lines {
            let stretch = &stretch(line.row, pass);
            let answer = inner.call(line.graph, line.call, stretch);
            expect(line, stretch, &answer);
            let same = public.call(line.graph, line.call, stretch);
            compare(
                "the public call",
                stretch,
                (&same, public.state()),
                (&answer, inner.state()),
            );
            #[cfg(feature = "rust")]
            {
                let same = rust.call(line.graph, line.call, stretch);
                compare(
                    "the Rust",
                    stretch,
                    (&same, rust.state()),
                    (&answer, inner.state()),
                );
            }
        }
    }
}

/// A line of its own for how many used words a test reads.
fn tell_used(stretch: &Stretch, used: u64) {
    let Stretch {
        layer,
        family,
        graphs,
        transitions,
        row,
        ..
    } = stretch;
    println!("used\t{layer}\t{family}\t{graphs}\t{transitions}\t{row}\t{used}");
}

fn main() {
    marks::caller();
    for (expression, items) in EXPRESSIONS {
        let stretch = |row| Stretch {
            layer: "expressions",
            family: expression,
            graphs: 0,
            transitions: items.len(),
            row,
            pass: PASSES - 1,
        };
        port::expression(items, &stretch("evaluate"), &stretch("type_of"));
    }
    for n in SIZES {
        for (end, family) in ENDS {
            one_graph(&stepping(n, end), &around(1, n, end), n, family);
        }
        one_graph(&talking(n), &spoken(), n, "talks");
    }
    for (graphs, n) in GRAPHS
        .map(|graphs| (graphs, SMALL))
        .into_iter()
        .chain([(FOUR, LARGE)])
    {
        for (end, family) in ENDS {
            system(
                &stepping(n, end),
                &around(graphs, n, end),
                graphs,
                n,
                family,
            );
        }
        system(&talking(n), &queued(graphs), graphs, n, "talks");
    }
}
