//! Two programs on the same lines: the first line at which they differ.

use std::collections::BTreeMap;
use std::thread;
use std::time::Duration;

use crate::maker::Line;
use crate::programs::{Mark, Outcome, Program, unmarked};

#[derive(Clone, Copy, PartialEq, Eq, Debug)]
pub enum Sums {
    /// Only whether the sum changed since the one before, in the same graph.
    Change,
    Exact,
}

pub struct Pair {
    pub port: Program,
    pub oracle: Program,
    pub sums: Sums,
}

#[derive(Clone, PartialEq, Eq, Debug)]
pub struct Difference {
    /// The line, counted from 0.
    pub line: usize,
    pub port: String,
    pub oracle: String,
}

pub struct Compared {
    pub difference: Option<Difference>,
    /// The oracle's answers with their marks.
    pub answers: Vec<(Option<Mark>, Line)>,
    /// What the programs wrote on standard error.
    pub errors: String,
}

pub fn joined(lines: &[Line]) -> Vec<u8> {
    let mut input = vec![];
    for line in lines {
        input.extend_from_slice(line);
        input.push(b'\n');
    }
    input
}

/// Time for so many lines, also on a slow or emulated machine.
pub fn patience(lines: usize) -> Duration {
    Duration::from_secs(30) + Duration::from_millis(30) * lines as u32
}

impl Pair {
    pub fn compare(&self, lines: &[Line]) -> Result<Compared, String> {
        let mut input = joined(lines);
        // A last line may lack its line end; an empty one would then be none.
        if lines.len() % 2 == 1 && lines.last().is_some_and(|line| !line.is_empty()) {
            input.pop();
        }
        let limit = patience(lines.len());
        let (oracle, port) = thread::scope(|scope| {
            let oracle = scope.spawn(|| self.oracle.run(&input, limit));
            let port = self.port.run(&input, limit);
            (oracle.join().expect("the thread ends"), port)
        });
        let (oracle, port) = (oracle?, port?);
        let answers: Vec<(Option<Mark>, Line)> = oracle
            .answers()
            .into_iter()
            .map(unmarked)
            .map(|(mark, answer)| (mark, answer.to_vec()))
            .collect();
        let difference = self.first(lines, &port, &oracle, &answers);
        Ok(Compared {
            difference,
            answers,
            errors: port.errors + &oracle.errors,
        })
    }

    fn first(
        &self,
        lines: &[Line],
        port: &Outcome,
        oracle: &Outcome,
        theirs: &[(Option<Mark>, Line)],
    ) -> Option<Difference> {
        let ours = port.answers();
        let theirs: Vec<&[u8]> = theirs.iter().map(|(_, answer)| answer.as_slice()).collect();
        let mut last: BTreeMap<&[u8], (Line, Line)> = BTreeMap::new();
        for (k, line) in lines.iter().enumerate() {
            let (Some(a), Some(b)) = (ours.get(k), theirs.get(k)) else {
                return Some(Difference {
                    line: k,
                    port: shown(&ours, k, port),
                    oracle: shown(&theirs, k, oracle),
                });
            };
            // A new graph or system: its sums have nothing before them.
            match line.as_slice() {
                b"g new" => last.retain(|sum, _| *sum != b"sum g"),
                b"s new" => last.retain(|sum, _| *sum == b"sum g"),
                _ => {}
            }
            let sum = line.starts_with(b"sum ") && is_sum(a) && is_sum(b);
            let equal = if self.sums == Sums::Change && sum {
                let now = (a.to_vec(), b.to_vec());
                let before = last.insert(line, now.clone());
                before.is_none_or(|before| (before.0 == now.0) == (before.1 == now.1))
            } else {
                a == b
            };
            if !equal {
                return Some(Difference {
                    line: k,
                    port: shown(&ours, k, port),
                    oracle: shown(&theirs, k, oracle),
                });
            }
        }
        let extra = ours.len() > lines.len() || theirs.len() > lines.len();
        if extra || !port.well() || !oracle.well() {
            let end = |answers: &[&[u8]], outcome: &Outcome| {
                format!("{} answers, {}", answers.len(), outcome.ending())
            };
            let line = lines.len().saturating_sub(1);
            return Some(Difference {
                line,
                port: end(&ours, port),
                oracle: end(&theirs, oracle),
            });
        }
        None
    }
}

fn is_sum(answer: &[u8]) -> bool {
    answer
        .strip_prefix(b"ok ")
        .is_some_and(|n| !n.is_empty() && n.iter().all(u8::is_ascii_digit))
}

fn shown(answers: &[&[u8]], k: usize, outcome: &Outcome) -> String {
    match answers.get(k) {
        Some(answer) => readable(answer),
        None if k == 0 => format!("no answer at all; {}", outcome.ending()),
        None => format!(
            "no answer, the last one was to line {k}; {}",
            outcome.ending()
        ),
    }
}

/// Bytes as text, odd ones escaped and long ones cut.
pub fn readable(bytes: &[u8]) -> String {
    let cut = &bytes[..bytes.len().min(300)];
    let text: String = cut
        .iter()
        .flat_map(|b| std::ascii::escape_default(*b))
        .map(char::from)
        .collect();
    let text = text.replace("\\\"", "\"").replace("\\'", "'");
    if cut.len() < bytes.len() {
        format!("{text}.. ({} bytes)", bytes.len())
    } else {
        text
    }
}
