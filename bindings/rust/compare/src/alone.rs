//! Random calls on the run of one graph, on both: steps, sends, receives and waits without channels.

use crate::chance::Chance;
use crate::expressions::their_val;
use crate::systems::{Both, Counts};
use crate::talks::Tally;
use njunnemar::Val;
use njunnemar::program_graph::{Action, Clock, Location, PgError, ProgramGraphRun, Var};
use rand::rngs::SmallRng;
use scan_core::program_graph as theirs;
use scan_core::{NoValue, Val as TheirVal};
use std::fmt::Debug;
use std::panic::{AssertUnwindSafe, catch_unwind};

/// The locations, variables and clocks of a run.
type Parts = (Vec<u32>, Vec<TheirVal>, Vec<u32>);

fn parts(run: &theirs::ProgramGraphRun) -> Parts {
    let (places, vars, clocks) = run.parts();
    (places.iter().map(|place| place.number()).collect(), vars.to_vec(), clocks.to_vec())
}

/// A graph's parts by their numbers.
struct Graph<'a> {
    def: &'a theirs::ProgramGraph,
    counts: &'a Counts,
    locations: Vec<Location>,
    actions: Vec<Action>,
    vars: Vec<Var>,
    clocks: Vec<Clock>,
}

impl Graph<'_> {
    fn read(&self, run: &ProgramGraphRun) -> Result<Parts, PgError> {
        let places = run.current_states().into_iter().map(u32::from).collect();
        let vars = self.vars[..self.counts.vars.len()].iter().map(|var| run.value(*var).map(their_val));
        let clocks = self.clocks[..self.counts.clocks].iter().map(|clock| run.clock(*clock));
        Ok((places, vars.collect::<Result<_, _>>()?, clocks.collect::<Result<_, _>>()?))
    }

    fn theirs(&self, (places, vars, clocks): &Parts) -> theirs::ProgramGraphRun<'_> {
        let places = places.iter().map(|place| theirs::Location::numbered(*place)).collect();
        theirs::ProgramGraphRun::from_parts(self.def, places, vars.clone(), clocks.clone())
    }
}

/// Both have answered: it has to be the same, or the Rust found no value. Says whether it was accepted.
fn same<T: Debug, U: Debug>(ours: Result<T, PgError>, theirs: std::thread::Result<Result<U, theirs::PgError>>, tally: &mut Tally) -> bool {
    tally.calls += 1;
    match (ours, theirs) {
        (Err(PgError::Overflow), Err(panic)) if panic.is::<NoValue>() => {
            tally.panicked[26] += 1;
            false
        }
        (ours, Ok(theirs)) => {
            assert_eq!(format!("{ours:?}"), format!("{theirs:?}"));
            match ours {
                Ok(_) => tally.accepted += 1,
                Err(refusal) => tally.refused[refusal.number() as usize] += 1,
            }
            ours.is_ok()
        }
        (ours, Err(_)) => panic!("ours {ours:?}, theirs panics"),
    }
}

fn values(chance: &mut Chance) -> Vec<Val> {
    let mut value = || if chance.percent(40) { Val::from(chance.percent(50)) } else { Val::from(chance.below(9) as i32 - 4) };
    let first = [value(), value(), value()];
    first[..chance.below(4)].to_vec()
}

/// So many calls on the run of each graph of the system.
pub fn talk(both: &Both, chance: &mut Chance, calls: usize, tally: &mut Tally) {
    for (g, counts) in both.counts.iter().enumerate() {
        let graph = Graph {
            def: &both.theirs.program_graphs()[g],
            counts,
            locations: both.ids.locations[g].iter().map(|location| location.in_graph()).collect(),
            actions: both.ids.actions[g].iter().map(|action| action.in_graph()).collect(),
            vars: both.ids.vars[g].iter().map(|var| var.in_graph()).collect(),
            clocks: both.ids.clocks[g].iter().map(|clock| clock.in_graph()).collect(),
        };
        let mut ours = both.ours.program_graphs()[g].new_instance();
        let mut now = parts(&graph.def.new_instance());
        for _ in 0..calls {
            assert_eq!(graph.read(&ours), Ok(now.clone()));
            let mut run = graph.theirs(&now);
            let a = if chance.percent(3) { 15 } else { chance.below(counts.actions) };
            let epsilon = chance.percent(10);
            let action = if epsilon { Action::EPSILON } else { graph.actions[a] };
            let their_action = theirs::Action::numbered(if epsilon { u32::MAX } else { a as u32 });
            let unknown = chance.percent(2);
            let mut posts: Vec<usize> = (0..counts.processes).map(|_| chance.below(counts.locations)).collect();
            if unknown {
                posts[0] = 7;
            }
            let mut to: Vec<Location> = posts.iter().map(|post| graph.locations[*post]).collect();
            let mut their_to: Vec<theirs::Location> = posts.iter().map(|post| theirs::Location::numbered(*post as u32)).collect();
            let word = chance.word();
            let mut rng = SmallRng::of_word(word);
            let accepted = match chance.below(10) {
                0..3 => {
                    let answer = ours.send(action, &to, &mut || word);
                    let answer = answer.map(|values| values.into_iter().map(their_val).collect::<Vec<_>>());
                    same(answer, catch_unwind(AssertUnwindSafe(|| run.open_send(their_action, &their_to, &mut rng))), tally)
                }
                3..5 => {
                    let values = values(chance);
                    let their_values: Vec<TheirVal> = values.iter().map(|val| their_val(*val)).collect();
                    let answer = ours.receive(action, &to, &values);
                    same(answer, catch_unwind(AssertUnwindSafe(|| run.open_receive(their_action, &their_to, &their_values))), tally)
                }
                5..7 => {
                    let delta = chance.below(6) as u32;
                    assert_eq!((ours.can_wait(delta), ours.is_waiting()), (run.can_wait(delta), run.is_waiting()));
                    same(ours.wait(delta), Ok(run.wait(delta)), tally)
                }
                _ => {
                    // A plain step tests the number of posts itself.
                    if chance.percent(3) {
                        to.push(graph.locations[0]);
                        their_to.push(theirs::Location::numbered(0));
                    }
                    let answer = ours.transition(action, &to, &mut || word);
                    same(answer, catch_unwind(AssertUnwindSafe(|| run.transition(their_action, &their_to, &mut rng))), tally)
                }
            };
            if accepted {
                now = parts(&run);
            }
        }
        assert_eq!(graph.read(&ours), Ok(now));
    }
}
