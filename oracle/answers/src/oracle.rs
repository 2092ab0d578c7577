//! Holds one graph with one run of it, and answers each line twice: by the rules, and by the Rust where it has an answer.

use crate::alone;
use crate::answer::{Answer, EPSILON};
use crate::building::{self, Objection};
use crate::call::{self, Building, Call, Running};
use crate::expression;
use crate::running::{self, Run};
use crate::rust::{self, Outcome, Rust};
use crate::system_oracle::Systems;
use crate::table::{Action, CLOCKS, Graph, PROCESSES, Table, VARIABLES, contains};
use std::ops::Bound;

/// Where an answer comes from.
#[derive(Debug, Clone, Copy, PartialEq, Eq)]
pub enum Mark {
    /// From the Rust, and the rules say the same.
    Rust,
    /// From the rules alone.
    Rules,
}

#[derive(Debug)]
pub struct Reply {
    pub mark: Mark,
    pub answer: Answer,
    /// What the Rust does instead.
    pub departs: Option<String>,
}

/// The rules and the Rust differ where docs/DIFFERENCES.md does not say so.
#[derive(Debug)]
pub struct Disagreement(pub String);

pub(crate) type Replied = Result<Reply, Disagreement>;

pub struct Oracle {
    table: Table,
    /// What the table says; none where it is badly formed.
    graph: Option<Graph>,
    /// The same graph in the Rust; none where it has yet to be built again from the table.
    rust: Option<Rust>,
    run: Run,
    /// The run came from the Rust, without a draw.
    compared: bool,
    /// Whether to ask the Rust also where it can only depart.
    departures: bool,
    systems: Systems,
}

impl Oracle {
    pub fn new(departures: bool) -> Self {
        Oracle {
            table: Table::default(),
            graph: Some(Graph::default()),
            rust: Some(Rust::new()),
            run: Run::zeros(),
            compared: false,
            departures,
            systems: Systems::new(),
        }
    }

    /// Answers a line; none stands for one that is too long.
    pub fn answer(&mut self, line: Option<&[u8]>) -> Replied {
        let Some(call) = line.and_then(call::read) else {
            return by_rules(Answer::BadLine);
        };
        match call {
            Call::NewGraph => self.new_graph(),
            Call::Building(building) => self.building(&building),
            Call::Kind(var) => self.kind(var),
            Call::Build => self.build(),
            Call::NewRun => self.new_run(),
            Call::Running(running) => self.running(&running),
            Call::Show => self.show(),
            Call::Has(lower, upper, time) => {
                let ours = Answer::yes_or_no(contains(lower, upper, time));
                both(ours, &rust::has(lower, upper, time))
            }
            Call::Shift(lower, upper, delta) => {
                let ours = Answer::Range(shifted(lower, delta), shifted(upper, delta));
                both(ours, &rust::shift(lower, upper, delta))
            }
            Call::Type(items, kinds) => alone::type_of(&items, &kinds),
            Call::Draws(items) => alone::draws(&items),
            Call::Eval(items, vals, word) => alone::eval(&items, &vals, word),
            Call::Poke(place, word) => self.poke(place, word),
            Call::Sum => by_rules(Answer::Sum(self.table.sum())),
            Call::System(call) => self.systems.answer(&call),
        }
    }

    fn new_graph(&mut self) -> Replied {
        self.table.clear();
        self.graph = Some(Graph::default());
        self.rust = Some(Rust::new());
        self.run = Run::zeros();
        self.compared = false;
        by_both(Answer::Ok)
    }

    fn building(&mut self, building: &Building) -> Replied {
        let Some(graph) = self.graph.take() else {
            return by_rules(Answer::Refused(32));
        };
        let mut rust = self.take_rust(&graph)?;
        let reply = match building::check(&graph, building) {
            Ok(()) => {
                let number = self.table.add(building);
                let ours = building::accepted(building, number);
                let theirs = rust.add(building, &graph.vars);
                self.graph = self.table.graph();
                if self.graph.is_none() {
                    return differs(building, &ours, "a badly formed table");
                }
                match theirs {
                    Ok(theirs) => both(ours, &theirs),
                    Err(theirs) => differs(building, &ours, &theirs),
                }
            }
            Err(objection) => {
                let reply = refused_building(&graph, &rust, building, objection);
                self.graph = Some(graph);
                reply
            }
        };
        self.rust = Some(rust);
        reply
    }

    fn kind(&mut self, var: u32) -> Replied {
        let Some(graph) = self.graph.clone() else {
            return by_rules(Answer::Refused(32));
        };
        let val = graph.vars.get(var as usize);
        let ours = val.map_or(Answer::Refused(4), |val| Answer::Kind(val.r#type()));
        let rust = self.take_rust(&graph)?;
        let theirs = rust.kind(var);
        self.rust = Some(rust);
        both(ours, &theirs)
    }

    fn build(&mut self) -> Replied {
        let Some(graph) = self.graph.clone() else {
            return by_rules(Answer::Refused(32));
        };
        let mut rust = self.take_rust(&graph)?;
        let built = rust.build().map(drop);
        self.rust = Some(rust);
        if let Err(theirs) = built {
            return differs("build", &Answer::Ok, &theirs);
        }
        if graph.processes.is_empty() {
            return departing(Answer::Refused(29), "ok");
        }
        by_both(Answer::Ok)
    }

    fn new_run(&mut self) -> Replied {
        let graph = self.graph.clone();
        let Some(graph) = graph.filter(|graph| !graph.processes.is_empty()) else {
            self.run = Run::zeros();
            self.compared = false;
            return by_rules(Answer::Refused(32));
        };
        let mut rust = self.take_rust(&graph)?;
        let theirs = rust.new_run();
        self.rust = Some(rust);
        self.run = Run::fresh(&graph);
        self.compared = true;
        if theirs.as_ref() != Ok(&self.run) {
            return differs("new_instance", &self.run, &theirs);
        }
        by_both(Answer::Ok)
    }

    fn running(&mut self, running: &Running) -> Replied {
        let Some(graph) = self.graph.clone() else {
            return by_rules(Answer::Refused(32));
        };
        if graph.processes.is_empty() {
            return self.without_process(&graph, running);
        }
        if !self.run.fits(&graph) {
            return by_rules(Answer::Refused(32));
        }
        let mut rust = self.take_rust(&graph)?;
        let theirs = rust.call(&self.run, running).map_err(Disagreement);
        self.rust = Some(rust);
        let theirs = theirs?;
        let (answer, next) = running::call(&graph, &self.run, running);
        let mark = match compared(&graph, &self.run, running, &answer) {
            Compared::No => Mark::Rules,
            Compared::NoValue if theirs == Outcome::NoValue => Mark::Rules,
            Compared::Drawn if same(&theirs, &answer, &next) => Mark::Rules,
            Compared::Yes if same(&theirs, &answer, &next) => Mark::Rust,
            _ => return differs(running, &(answer, next), &theirs),
        };
        let departs = (!same(&theirs, &answer, &next)).then(|| theirs.to_string());
        if answer.accepted() {
            self.compared &= mark == Mark::Rust;
            self.run = next;
        }
        Ok(Reply {
            mark,
            answer,
            departs,
        })
    }

    /// The Rust is asked on a fresh run, but not for `is_waiting`: it would not come back.
    fn without_process(&mut self, graph: &Graph, running: &Running) -> Replied {
        if !self.departures || *running == Running::Waiting {
            return by_rules(Answer::Refused(32));
        }
        let mut rust = self.take_rust(graph)?;
        let theirs = rust.call(&Run::fresh(graph), running);
        self.rust = Some(rust);
        let theirs = theirs.map_err(Disagreement)?;
        departing(Answer::Refused(32), theirs)
    }

    /// As many of each as the table's counts say.
    fn show(&self) -> Replied {
        let run = &self.run;
        let count = |part| self.table.cut_count(part);
        let answer = Answer::Run(
            run.places[..count(PROCESSES)].to_vec(),
            run.vars[..count(VARIABLES)].to_vec(),
            run.clocks[..count(CLOCKS)].to_vec(),
        );
        let fits = self.graph.as_ref().is_some_and(|graph| run.fits(graph));
        if self.compared && fits {
            by_both(answer)
        } else {
            by_rules(answer)
        }
    }

    fn poke(&mut self, place: usize, word: u64) -> Replied {
        self.table.poke(place, word);
        let graph = self.table.graph();
        if graph != self.graph {
            self.graph = graph;
            self.rust = None;
        }
        by_rules(Answer::Ok)
    }

    /// The graph in the Rust; the caller puts it back.
    fn take_rust(&mut self, graph: &Graph) -> Result<Rust, Disagreement> {
        match self.rust.take() {
            Some(rust) => Ok(rust),
            None => Rust::of_graph(graph).map_err(Disagreement),
        }
    }
}

/// A refused building call. The Rust is asked on a copy of its builder.
fn refused_building(
    graph: &Graph,
    rust: &Rust,
    building: &Building,
    objection: Objection,
) -> Replied {
    let ours = Answer::Refused(objection.number());
    let (theirs, kept) = rust.try_add(building, &graph.vars);
    let theirs = theirs.map_err(Disagreement)?;
    match objection {
        Objection::Refused(_) if theirs == ours => Ok(Reply {
            mark: Mark::Rust,
            departs: kept.then(|| format!("{theirs}, and a location stays")),
            answer: ours,
        }),
        Objection::ListTooLong => departing(ours, theirs),
        Objection::TableFull if theirs.accepted() => departing(ours, theirs),
        _ => differs(building, &ours, &theirs),
    }
}

/// How far a run call's answer can be compared with the Rust's.
enum Compared {
    Yes,
    /// The Rust runs on the test code's draws.
    Drawn,
    /// The test code unwinds.
    NoValue,
    /// The Rust has no such rule.
    No,
}

fn compared(graph: &Graph, run: &Run, running: &Running, answer: &Answer) -> Compared {
    let no_rule = match running {
        Running::Wait(delta) | Running::Can(delta) => running::overflows(run, *delta),
        Running::Waiting => running::overflows(run, 1),
        Running::Send(action, posts, _) | Running::Receive(action, posts, _) => {
            *action != EPSILON && posts.len() != run.processes
        }
        Running::Value(var) => *var as usize >= run.variables,
        Running::Clock(clock) => *clock as usize >= run.timers,
        Running::Step(..) | Running::List(_) | Running::Solo(_) | Running::Places => false,
    };
    if no_rule {
        Compared::No
    } else if *answer == Answer::Refused(26) {
        Compared::NoValue
    } else if answer.accepted() && draws(graph, running) {
        Compared::Drawn
    } else {
        Compared::Yes
    }
}

/// Whether a step or a send draws.
fn draws(graph: &Graph, running: &Running) -> bool {
    let (Running::Step(action, ..) | Running::Send(action, ..)) = running else {
        return false;
    };
    let drawn = |items: &Vec<u64>| expression::draws(items) > 0;
    match graph.actions.get(*action as usize) {
        Some(Action::Plain { effects, .. }) => effects.iter().any(|(_, items)| drawn(items)),
        Some(Action::Send(messages)) => messages.iter().any(drawn),
        _ => false,
    }
}

fn same(theirs: &Outcome, answer: &Answer, next: &Run) -> bool {
    matches!(theirs, Outcome::Answered(a, run) if a == answer && **run == *next)
}

fn shifted(bound: Bound<u32>, delta: u32) -> Bound<u32> {
    let later = |time: u32| u32::try_from(u64::from(time) + u64::from(delta)).unwrap_or(u32::MAX);
    match bound {
        Bound::Unbounded => Bound::Unbounded,
        Bound::Included(time) => Bound::Included(later(time)),
        Bound::Excluded(time) => Bound::Excluded(later(time)),
    }
}

pub(crate) fn by_rules(answer: Answer) -> Replied {
    Ok(Reply {
        mark: Mark::Rules,
        answer,
        departs: None,
    })
}

pub(crate) fn by_both(answer: Answer) -> Replied {
    Ok(Reply {
        mark: Mark::Rust,
        answer,
        departs: None,
    })
}

pub(crate) fn departing(answer: Answer, theirs: impl ToString) -> Replied {
    Ok(Reply {
        mark: Mark::Rules,
        answer,
        departs: Some(theirs.to_string()),
    })
}

pub(crate) fn both(ours: Answer, theirs: &Answer) -> Replied {
    if ours == *theirs {
        by_both(ours)
    } else {
        differs("both", &ours, theirs)
    }
}

pub(crate) fn differs(
    what: impl std::fmt::Debug,
    ours: &impl std::fmt::Debug,
    theirs: impl std::fmt::Debug,
) -> Replied {
    Err(Disagreement(format!(
        "{what:?}: by the rules {ours:?}, by the Rust {theirs:?}"
    )))
}
