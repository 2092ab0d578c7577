//! The two programs: started, spoken to, and read.

use std::io::{BufRead, BufReader, Read, Write};
use std::process::{Child, ChildStdin, Command, Stdio};
use std::sync::mpsc::{Receiver, channel};
use std::thread;
use std::time::{Duration, Instant};

use crate::maker::{Line, Teller};

/// A command as one would type it; blanks separate its words, there is no quoting.
#[derive(Clone, Debug)]
pub struct Program {
    words: Vec<String>,
}

impl Program {
    pub fn new(text: &str) -> Self {
        Program {
            words: text.split_whitespace().map(str::to_string).collect(),
        }
    }

    pub fn with(&self, options: &[&str]) -> Self {
        let mut words = self.words.clone();
        words.extend(options.iter().map(|o| o.to_string()));
        Program { words }
    }

    pub fn text(&self) -> String {
        self.words.join(" ")
    }

    fn start(&self) -> Result<Child, String> {
        let Some((program, options)) = self.words.split_first() else {
            return Err("a command is empty".to_string());
        };
        Command::new(program)
            .args(options)
            .stdin(Stdio::piped())
            .stdout(Stdio::piped())
            .stderr(Stdio::piped())
            .spawn()
            .map_err(|e| format!("{}: {e}", self.text()))
    }

    /// Gives it the whole input and takes what it writes, for so long at most.
    pub fn run(&self, input: &[u8], limit: Duration) -> Result<Outcome, String> {
        let mut child = self.start()?;
        let mut stdin = child.stdin.take().expect("standard input");
        let input = input.to_vec();
        let writer = thread::spawn(move || {
            // A program that ends early closes its input: what it has answered says so.
            let _ = stdin.write_all(&input);
        });
        let out = collect(child.stdout.take().expect("standard output"));
        let err = collect(child.stderr.take().expect("standard error"));
        let end = Instant::now() + limit;
        let output = out.recv_timeout(limit);
        let late = output.is_err() || !ended(&mut child, end);
        if late {
            let _ = child.kill();
        }
        let status = child.wait().ok().and_then(|status| status.code());
        let output = output
            .or_else(|_| out.recv_timeout(Duration::from_secs(5)))
            .unwrap_or_default();
        if !late {
            let _ = writer.join();
        }
        let errors = err.recv_timeout(Duration::from_secs(5)).unwrap_or_default();
        Ok(Outcome {
            output,
            errors: String::from_utf8_lossy(&errors).into_owned(),
            status,
            late,
        })
    }
}

/// Waits for the end until a time.
fn ended(child: &mut Child, end: Instant) -> bool {
    loop {
        match child.try_wait() {
            Ok(Some(_)) => return true,
            Ok(None) if Instant::now() < end => thread::sleep(Duration::from_micros(200)),
            _ => return false,
        }
    }
}

/// The most that is read of an output, so that a program that writes without end does no harm.
const MOST: u64 = 1 << 28;

fn collect(from: impl Read + Send + 'static) -> Receiver<Vec<u8>> {
    let (sender, receiver) = channel();
    thread::spawn(move || {
        let mut bytes = vec![];
        let _ = from.take(MOST).read_to_end(&mut bytes);
        let _ = sender.send(bytes);
    });
    receiver
}

pub struct Outcome {
    pub output: Vec<u8>,
    pub errors: String,
    /// None where a signal ended it.
    pub status: Option<i32>,
    /// It did not end in time, and was ended.
    pub late: bool,
}

impl Outcome {
    /// The answers, a line each. A last one without its line end is none.
    pub fn answers(&self) -> Vec<&[u8]> {
        let mut lines: Vec<&[u8]> = self.output.split(|b| *b == b'\n').collect();
        lines.pop();
        lines
    }

    /// It ended by itself with status 0, and its last answer was whole.
    pub fn well(&self) -> bool {
        !self.late && self.status == Some(0) && self.output.last().is_none_or(|b| *b == b'\n')
    }

    pub fn ending(&self) -> String {
        match (self.late, self.status) {
            (true, _) => "did not end in time".to_string(),
            (_, Some(0)) if !self.well() => "ended within an answer".to_string(),
            (_, Some(n)) => format!("ended with status {n}"),
            (_, None) => "was ended by a signal".to_string(),
        }
    }
}

/// A conversation, line by line.
pub struct Talk {
    child: Child,
    stdin: Option<ChildStdin>,
    answers: Receiver<Line>,
}

/// How long one answer may take.
const PATIENCE: Duration = Duration::from_secs(30);

impl Talk {
    pub fn new(program: &Program) -> Result<Self, String> {
        let mut child = program.start()?;
        let stdin = child.stdin.take();
        let stdout = child.stdout.take().expect("standard output");
        drop(collect(child.stderr.take().expect("standard error")));
        let (sender, answers) = channel();
        thread::spawn(move || {
            let mut reader = BufReader::new(stdout);
            loop {
                let mut line = vec![];
                match reader.read_until(b'\n', &mut line) {
                    Ok(n) if n > 0 && line.pop() == Some(b'\n') => {}
                    _ => return,
                }
                if sender.send(line).is_err() {
                    return;
                }
            }
        });
        Ok(Talk {
            child,
            stdin,
            answers,
        })
    }
}

impl Teller for Talk {
    fn ask(&mut self, line: &[u8]) -> Option<String> {
        let mut bytes = line.to_vec();
        bytes.push(b'\n');
        self.stdin.as_mut()?.write_all(&bytes).ok()?;
        let answer = self.answers.recv_timeout(PATIENCE).ok()?;
        Some(String::from_utf8_lossy(unmarked(&answer).1).into_owned())
    }
}

impl Drop for Talk {
    fn drop(&mut self) {
        self.stdin = None;
        if !ended(&mut self.child, Instant::now() + Duration::from_secs(2)) {
            let _ = self.child.kill();
        }
        let _ = self.child.wait();
    }
}

/// The mark of an answer, if it has one, and the answer. No answer of the language begins like a mark.
pub fn unmarked(answer: &[u8]) -> (Option<Mark>, &[u8]) {
    match answer {
        [b'R', b' ', rest @ ..] => (Some(Mark::Rust), rest),
        [b'P', b' ', rest @ ..] => (Some(Mark::Rules), rest),
        _ => (None, answer),
    }
}

/// Where the oracle has an answer from.
#[derive(Clone, Copy, PartialEq, Eq, Debug)]
pub enum Mark {
    Rust,
    Rules,
}
