//! Bytes that are mostly no lines at all: a program has to answer each line with one line, and to end well.

use crate::chance::Chance;
use crate::maker::{Maker, Teller};
use crate::programs::Outcome;
use crate::table::{Answer, answer_of};

/// One line of this many bytes is always among them, if there is room.
const HUGE: usize = 1 << 20;

struct Nobody;

impl Teller for Nobody {
    fn ask(&mut self, _: &[u8]) -> Option<String> {
        Some(String::new())
    }
}

/// So many bytes from a seed; the last line may lack its end.
pub fn junk(count: usize, seed: u64) -> Vec<u8> {
    let mut nobody = Nobody;
    let mut maker = Maker::new(Chance::new(seed), &mut nobody);
    let mut bytes = vec![];
    let huge = if count > 2 * HUGE {
        maker.chance.below(count - HUGE)
    } else {
        usize::MAX
    };
    let mut huge_left = huge != usize::MAX;
    while bytes.len() < count {
        if huge_left && bytes.len() >= huge {
            bytes.extend(
                (0..HUGE)
                    .map(|_| maker.chance.word() as u8)
                    .map(|b| if b == b'\n' { b' ' } else { b }),
            );
            huge_left = false;
        }
        match maker.chance.below(10) {
            0..=2 => {
                let length = maker.chance.below(200);
                bytes.extend((0..length).map(|_| maker.chance.word() as u8));
            }
            3 => bytes.extend(vec![b'\n'; maker.chance.below(4)]),
            4..=5 => bytes.extend(maker.malformed()),
            6 => bytes.extend(call(&mut maker).into_bytes()),
            _ => {
                let line = call(&mut maker).into_bytes();
                bytes.extend(scratched(&mut maker.chance, line));
            }
        }
        bytes.push(b'\n');
    }
    bytes.truncate(count);
    bytes
}

/// A call that is right as a line; what it answers does not matter here.
fn call(maker: &mut Maker) -> String {
    let deltas = maker.odd_time();
    match maker.chance.below(10) {
        0..=4 => {
            let build = maker.faulty();
            build.text()
        }
        5 => maker.range_line(),
        8 => maker.reader_line(),
        9 => maker.expression_line(),
        6 => format!("r can {deltas}"),
        _ => format!(
            "r step {} ( {} ) {}",
            maker.chance.below(4),
            maker.chance.below(4),
            maker.chance.word()
        ),
    }
}

/// A few bytes changed, left out or added.
fn scratched(chance: &mut Chance, mut line: Vec<u8>) -> Vec<u8> {
    for _ in 0..chance.from_to(1, 3) {
        let at = chance.below(line.len());
        let byte = if chance.percent(50) {
            *chance.pick(b" 0 9 e{}[]()#v=!*-tf")
        } else {
            chance.word() as u8
        };
        match chance.below(3) {
            0 if !line.is_empty() => line[at] = byte,
            1 if !line.is_empty() => {
                line.remove(at);
            }
            _ => line.insert(at, byte),
        }
    }
    line
}

/// How many lines an input has: a last one without its end counts if it is not empty.
pub fn lines_of(input: &[u8]) -> usize {
    let ends = input.iter().filter(|b| **b == b'\n').count();
    ends + (input.last().is_some_and(|b| *b != b'\n')) as usize
}

/// What is wrong with the answers to an input, if anything is.
pub fn wrong(input: &[u8], outcome: &Outcome) -> Option<String> {
    let (wanted, answers) = (lines_of(input), outcome.answers());
    if answers.len() != wanted {
        return Some(format!(
            "{} answers to {wanted} lines; it {}",
            answers.len(),
            outcome.ending()
        ));
    }
    if !outcome.well() {
        return Some(format!("it {}", outcome.ending()));
    }
    let odd = answers
        .iter()
        .position(|answer| answer_of(answer) == Answer::Other)?;
    Some(format!(
        "line {}: the answer is none of the language",
        odd + 1
    ))
}

#[cfg(test)]
mod tests {
    use super::*;

    #[test]
    fn junk_is_the_same_for_a_seed_and_has_its_size() {
        assert_eq!(junk(5000, 3), junk(5000, 3));
        assert_ne!(junk(5000, 3), junk(5000, 4));
        assert_eq!(junk(5000, 3).len(), 5000);
    }

    #[test]
    fn a_huge_line_is_there() {
        let bytes = junk(3 * HUGE, 1);
        assert!(bytes.split(|b| *b == b'\n').any(|line| line.len() >= HUGE));
    }

    #[test]
    fn lines_are_counted() {
        assert_eq!(lines_of(b""), 0);
        assert_eq!(lines_of(b"a"), 1);
        assert_eq!(lines_of(b"a\n"), 1);
        assert_eq!(lines_of(b"a\n\n"), 2);
        assert_eq!(lines_of(b"\nb"), 2);
    }
}
