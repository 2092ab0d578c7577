//! What was compared: how often each call was accepted, and each refusal, so that nobody takes a comparison of refusals for one
//! of steps.

use std::collections::{BTreeMap, BTreeSet};
use std::fmt::Write;

use crate::maker::Line;
use crate::programs::Mark;
use crate::system_table::{Queues, SYSTEM_CALLS, second_token};

/// The calls, in the order of the table.
pub const CALLS: [&str; 36] = [
    "g new",
    "g var",
    "g clock",
    "g action",
    "g send",
    "g receive",
    "g reset",
    "g effect",
    "g location",
    "g process",
    "g initial",
    "g transition",
    "g auto",
    "g kind",
    "g build",
    "r new",
    "r step",
    "r send",
    "r receive",
    "r wait",
    "r can",
    "r waiting",
    "r list",
    "r solo",
    "r value",
    "r clock",
    "r places",
    "r show",
    "range has",
    "range shift",
    "type",
    "draws",
    "eval",
    "poke g",
    "sum g",
    BAD,
];

pub const BAD: &str = "bad line";

/// Calls that a line's first word names.
const ALONE: [&str; 3] = ["type", "draws", "eval"];

/// Those that move a run.
const MOVES: [&str; 6] = [
    "r step",
    "r send",
    "r receive",
    "r wait",
    "t step",
    "t wait",
];

/// Every call, graphs before systems.
fn calls() -> impl Iterator<Item = &'static str> {
    CALLS.into_iter().chain(SYSTEM_CALLS)
}

fn starts(line: &[u8], word: &str) -> bool {
    line.split(|b| *b == b' ').next() == Some(word.as_bytes())
}

pub fn call_of(line: &[u8], answer: &[u8]) -> &'static str {
    if answer == BAD.as_bytes() {
        return BAD;
    }
    if let Some(call) = ALONE.into_iter().find(|call| starts(line, call)) {
        return call;
    }
    let tokens: Vec<&[u8]> = line.split(|b| *b == b' ').collect();
    let second = if tokens[0] == b"range" {
        3
    } else {
        second_token(&tokens)
    };
    let name = [tokens[0], tokens.get(second).copied().unwrap_or(b"")].join(&b' ');
    calls().find(|call| call.as_bytes() == name).unwrap_or(BAD)
}

/// A sort of answer: `refused N`, or the first word.
#[derive(Clone, Copy, PartialEq, Eq, PartialOrd, Ord, Debug)]
pub enum Answer {
    Ok,
    Yes,
    No,
    End,
    NoValue,
    Shown,
    Refused(u32),
    Bad,
    Other,
}

pub fn answer_of(answer: &[u8]) -> Answer {
    let text = String::from_utf8_lossy(answer);
    let mut tokens = text.split(' ');
    match (tokens.next(), tokens.next()) {
        (Some("ok"), _) => Answer::Ok,
        (Some("none"), Some(_)) => Answer::NoValue,
        (Some("yes"), None) => Answer::Yes,
        (Some("no"), None) => Answer::No,
        (Some("end"), None) => Answer::End,
        (Some("places" | "time"), _) => Answer::Shown,
        (Some("refused"), Some(n)) => n.parse().map_or(Answer::Other, Answer::Refused),
        (Some("bad"), Some("line")) => Answer::Bad,
        _ => Answer::Other,
    }
}

#[derive(Default)]
struct Count {
    rust: usize,
    rules: usize,
}

impl Count {
    fn add(&mut self, mark: Option<Mark>) {
        match mark {
            Some(Mark::Rust) => self.rust += 1,
            _ => self.rules += 1,
        }
    }

    fn all(&self) -> usize {
        self.rust + self.rules
    }
}

#[derive(Default)]
pub struct Table {
    pub scripts: usize,
    lines: Count,
    pairs: BTreeMap<(&'static str, Answer), Count>,
    queues: Queues,
}

impl Table {
    pub fn add(&mut self, line: &Line, mark: Option<Mark>, answer: &[u8]) {
        self.lines.add(mark);
        self.queues.add(line, answer);
        self.pairs
            .entry((call_of(line, answer), answer_of(answer)))
            .or_default()
            .add(mark);
    }

    pub fn lines(&self) -> usize {
        self.lines.all()
    }

    pub fn pairs(&self) -> BTreeSet<(&'static str, Answer)> {
        self.pairs.keys().copied().collect()
    }

    fn sum(&self, mut wanted: impl FnMut(&str, Answer) -> bool) -> Count {
        let mut sum = Count::default();
        for ((call, answer), count) in &self.pairs {
            if wanted(call, *answer) {
                sum.rust += count.rust;
                sum.rules += count.rules;
            }
        }
        sum
    }

    /// Steps, sends, receives and waits that were accepted.
    fn moves(&self) -> Count {
        self.sum(|call, answer| MOVES.contains(&call) && answer == Answer::Ok)
    }

    /// Their share of all lines, of a hundred.
    pub fn share(&self) -> f64 {
        100.0 * self.moves().all() as f64 / self.lines().max(1) as f64
    }

    pub fn markdown(&self) -> String {
        let mut text = String::new();
        let _ = writeln!(text, "| Compared | Number |\n|---|---|");
        let _ = writeln!(text, "| scripts | {} |", self.scripts);
        let _ = writeln!(text, "| lines | {} |", self.lines());
        let _ = writeln!(
            text,
            "| lines answered by the Rust (R) | {} |",
            self.lines.rust
        );
        let _ = writeln!(
            text,
            "| lines answered by the rules alone (P) | {} |",
            self.lines.rules
        );
        let _ = writeln!(
            text,
            "| accepted steps, sends, receives and waits | {} |",
            self.moves().all()
        );
        let _ = writeln!(
            text,
            "| of these answered by the Rust (R) | {} |",
            self.moves().rust
        );
        let _ = writeln!(text, "| share of all lines | {:.1} % |", self.share());
        let steps = self
            .sum(|call, _| ["t step", "t wait"].contains(&call))
            .all();
        if steps > 0 {
            let accepted = self
                .sum(|call, answer| ["t step", "t wait"].contains(&call) && answer == Answer::Ok);
            let share = 100.0 * accepted.all() as f64 / steps as f64;
            let _ = writeln!(text, "| accepted of `t step` and `t wait` | {share:.1} % |");
        }
        text.push('\n');
        self.calls(&mut text);
        text.push('\n');
        self.refusals(&mut text);
        let queues = self.queues.markdown();
        if !queues.is_empty() {
            text.push('\n');
            text.push_str(&queues);
        }
        text
    }

    fn calls(&self, text: &mut String) {
        let _ = writeln!(
            text,
            "| Call | Lines | R | P | Accepted | Refused: number × times |\n|---|---|---|---|---|---|"
        );
        for name in calls() {
            let all = self.sum(|call, _| call == name);
            if all.all() == 0 {
                continue;
            }
            let accepted = self.accepted(name);
            let mut refused = String::new();
            for ((call, answer), count) in &self.pairs {
                if let (true, Answer::Refused(n)) = (*call == name, answer) {
                    let _ = write!(
                        refused,
                        "{}{n} × {}",
                        if refused.is_empty() { "" } else { ", " },
                        count.all()
                    );
                }
            }
            let _ = writeln!(
                text,
                "| `{name}` | {} | {} | {} | {accepted} | {refused} |",
                all.all(),
                all.rust,
                all.rules
            );
        }
    }

    /// A plain number, or by answer where there are several that accept.
    fn accepted(&self, name: &str) -> String {
        let mut list = vec![];
        for (answer, word) in [
            (Answer::Ok, "ok"),
            (Answer::Yes, "yes"),
            (Answer::No, "no"),
            (Answer::End, "end"),
            (Answer::NoValue, "none"),
            (Answer::Shown, "shown"),
        ] {
            let count = self.sum(|call, a| call == name && a == answer).all();
            if count > 0 {
                list.push((count, word));
            }
        }
        match list.as_slice() {
            [] => "0".to_string(),
            [(count, "ok" | "shown")] => count.to_string(),
            _ => list
                .iter()
                .map(|(count, word)| format!("{count} {word}"))
                .collect::<Vec<_>>()
                .join(", "),
        }
    }

    fn refusals(&self, text: &mut String) {
        let _ = writeln!(
            text,
            "| Refusal | Times | R | P | Calls |\n|---|---|---|---|---|"
        );
        for n in 1..=32 {
            let count = self.sum(|_, answer| answer == Answer::Refused(n));
            if count.all() > 0 {
                let calls: Vec<&str> = calls()
                    .filter(|call| self.pairs.contains_key(&(*call, Answer::Refused(n))))
                    .collect();
                let _ = writeln!(
                    text,
                    "| {n} | {} | {} | {} | {} |",
                    count.all(),
                    count.rust,
                    count.rules,
                    calls.join(", ")
                );
            }
        }
    }
}

#[cfg(test)]
mod tests {
    use super::*;

    #[test]
    fn lines_are_named_by_their_call() {
        assert_eq!(call_of(b"range =1 * shift 4", b"ok =5 *"), "range shift");
        assert_eq!(call_of(b"r step 0 ( 1 ) 0", b"refused 8"), "r step");
        assert_eq!(call_of(b"sum g", b"ok 7"), "sum g");
        assert_eq!(call_of(b"eval { t } ( ) 0", b"ok b1 0"), "eval");
        assert_eq!(call_of(b"r  new", b"bad line"), BAD);
        assert_eq!(call_of(b"", b"bad line"), BAD);
    }

    #[test]
    fn answers_are_sorted() {
        assert_eq!(answer_of(b"refused 28"), Answer::Refused(28));
        assert_eq!(answer_of(b"ok b1 i-3"), Answer::Ok);
        assert_eq!(answer_of(b"none 7"), Answer::NoValue);
        assert_eq!(answer_of(b"places 0 vars clocks"), Answer::Shown);
        assert_eq!(answer_of(b"bad line"), Answer::Bad);
        assert_eq!(answer_of(b""), Answer::Other);
    }

    #[test]
    fn the_share_counts_accepted_moves() {
        let mut table = Table::default();
        for (line, answer) in [
            ("r wait 1", "ok"),
            ("r wait 1", "refused 9"),
            ("r can 1", "yes"),
            ("r send 0 ( 0 ) 0", "ok i1"),
        ] {
            table.add(
                &line.as_bytes().to_vec(),
                Some(Mark::Rust),
                answer.as_bytes(),
            );
        }
        assert_eq!(table.moves().all(), 2);
        assert!(table.markdown().contains("| 50.0 % |"));
    }
}
