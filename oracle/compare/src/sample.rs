//! A fixed sample: few scripts that together have every pair of call and answer which the seeds have.

use std::cmp::Reverse;
use std::collections::BTreeSet;

use crate::maker::Line;
use crate::table::{Answer, answer_of, call_of};

/// A script with the oracle's answers.
pub struct Answered {
    pub lines: Vec<Line>,
    pub answers: Vec<Line>,
}

type Pairs = BTreeSet<(&'static str, Answer)>;

fn pairs(script: &Answered) -> Pairs {
    script
        .lines
        .iter()
        .zip(&script.answers)
        .map(|(line, answer)| (call_of(line, answer), answer_of(answer)))
        .collect()
}

/// The scripts to take, by their number: first those with the most new pairs, then any others, up to about
/// `wanted` lines. Pairs go before the wanted number.
pub fn chosen(scripts: &[Answered], wanted: usize) -> Vec<usize> {
    let all: Vec<Pairs> = scripts.iter().map(pairs).collect();
    let mut have = Pairs::new();
    let (mut taken, mut lines) = (vec![], 0);
    loop {
        let gain = |k: &usize| {
            (
                all[*k].difference(&have).count(),
                Reverse(scripts[*k].lines.len()),
                Reverse(*k),
            )
        };
        let rest = (0..scripts.len()).filter(|k| !taken.contains(k) && !all[*k].is_subset(&have));
        let Some(best) = rest.max_by_key(gain) else {
            break;
        };
        have.extend(all[best].iter().copied());
        lines += scripts[best].lines.len();
        taken.push(best);
    }
    for (k, script) in scripts.iter().enumerate() {
        if lines >= wanted {
            break;
        }
        if !taken.contains(&k) {
            lines += script.lines.len();
            taken.push(k);
        }
    }
    taken.sort();
    taken
}

#[cfg(test)]
mod tests {
    use super::*;

    fn script(lines: &[(&str, &str)]) -> Answered {
        let bytes = |text: &str| text.as_bytes().to_vec();
        Answered {
            lines: lines.iter().map(|l| bytes(l.0)).collect(),
            answers: lines.iter().map(|l| bytes(l.1)).collect(),
        }
    }

    #[test]
    fn every_pair_is_taken() {
        let scripts = [
            script(&[("r wait 1", "ok")]),
            script(&[("r wait 1", "ok"), ("r wait 2", "refused 9")]),
            script(&[("r can 1", "yes"), ("r wait 1", "ok")]),
        ];
        assert_eq!(chosen(&scripts, 1), [1, 2]);
        assert_eq!(chosen(&scripts, 100), [0, 1, 2]);
    }
}
