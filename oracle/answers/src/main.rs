//! Reads lines from standard input and writes one answer for each.
//!
//! `--marks` writes `R ` before an answer that came from the Rust, `P ` before one from the rules alone. `--departures`
//! says on standard error where the Rust does otherwise, and what.

use answers::lines::Lines;
use answers::oracle::{Mark, Oracle};
use std::io::{self, Read, Write};
use std::process::ExitCode;

struct Program<W: Write> {
    oracle: Oracle,
    marks: bool,
    departures: bool,
    line: u64,
    out: W,
}

enum Stop {
    Io(io::Error),
    Disagreement,
}

impl From<io::Error> for Stop {
    fn from(error: io::Error) -> Self {
        Stop::Io(error)
    }
}

impl<W: Write> Program<W> {
    fn answer(&mut self, line: Option<&[u8]>) -> Result<(), Stop> {
        self.line += 1;
        let shown = || String::from_utf8_lossy(line.unwrap_or(b"(too long)")).into_owned();
        let reply = match self.oracle.answer(line) {
            Ok(reply) => reply,
            Err(disagreement) => {
                self.out.flush()?;
                let (number, text) = (self.line, disagreement.0);
                eprintln!(
                    "oracle disagrees with itself: line {number}: {}: {text}",
                    shown()
                );
                return Err(Stop::Disagreement);
            }
        };
        if self.marks {
            self.out.write_all(match reply.mark {
                Mark::Rust => b"R ",
                Mark::Rules => b"P ",
            })?;
        }
        writeln!(self.out, "{}", reply.answer)?;
        if self.departures
            && let Some(theirs) = reply.departs
        {
            let (number, ours) = (self.line, reply.answer);
            eprintln!(
                "line {number}: {}: here {ours}, in the Rust: {theirs}",
                shown()
            );
        }
        Ok(())
    }

    /// Answers are written out as soon as what was read is answered, so that a program can hold a conversation.
    fn all(&mut self, mut input: impl Read) -> Result<(), Stop> {
        let mut lines = Lines::default();
        let mut buffer = vec![0; 1 << 16];
        loop {
            let count = match input.read(&mut buffer) {
                Err(error) if error.kind() == io::ErrorKind::Interrupted => continue,
                count => count?,
            };
            if count == 0 {
                break;
            }
            lines.piece(&buffer[..count], |line| self.answer(line))?;
            self.out.flush()?;
        }
        lines.last(|line| self.answer(line))?;
        Ok(self.out.flush()?)
    }
}

fn main() -> ExitCode {
    let (mut marks, mut departures) = (false, false);
    for argument in std::env::args().skip(1) {
        match argument.as_str() {
            "--marks" => marks = true,
            "--departures" => departures = true,
            // Answers are flushed in any case.
            "--flush" => {}
            _ => {
                eprintln!("usage: oracle [--marks] [--departures] [--flush] < lines");
                return ExitCode::from(2);
            }
        }
    }
    let mut program = Program {
        oracle: Oracle::new(departures),
        marks,
        departures,
        line: 0,
        out: io::BufWriter::new(io::stdout().lock()),
    };
    match program.all(io::stdin().lock()) {
        Ok(()) => ExitCode::SUCCESS,
        Err(Stop::Io(error)) if error.kind() == io::ErrorKind::BrokenPipe => ExitCode::SUCCESS,
        Err(Stop::Io(error)) => {
            eprintln!("oracle: {error}");
            ExitCode::from(2)
        }
        Err(Stop::Disagreement) => ExitCode::from(3),
    }
}
