//! The command line (README.md).

use std::fs;
use std::io::{Write, stdout};
use std::ops::Range;
use std::path::PathBuf;
use std::process::ExitCode;
use std::time::{Duration, Instant};

use compare::cut::cut;
use compare::differ::{Compared, Difference, Pair, Sums, joined, patience, readable};
use compare::junk;
use compare::maker::Line;
use compare::programs::{Program, Talk, unmarked};
use compare::sample::{Answered, chosen};
use compare::script::script;
use compare::system_script::{building_alone, system_script};
use compare::table::{Table, call_of};

const USAGE: &str = "compare --port CMD [--oracle CMD] --seeds FROM..TO [--systems [--building]] [--sums exact] [--batch N] [--quiet]
compare --oracle-alone [--oracle CMD] --seeds FROM..TO [--systems] [--batch N] [--quiet]
compare --print --seed S [--systems [--building]] [--oracle CMD]
compare --fixed N --seeds FROM..TO [--systems [--building]] [--out FOLDER] [--oracle CMD] [--sums exact]
compare --random-bytes N --seed S --port CMD [--oracle CMD]

With --systems the scripts are about systems, else about graphs; with --building they build systems and do not run them. --oracle-alone puts the oracle beside itself. CMD is a command and its options, separated by blanks. Without --oracle it is the `oracle` beside this program.";

/// Lines that are compared by their change, if at all.
const SUMS: [&[u8]; 3] = [b"sum g", b"sum s", b"sum t"];

/// How long a script is cut down. One that hangs on a count of many lines would take hours.
const CUTTING: Duration = Duration::from_secs(180);

/// Status 0: no difference. 1: a difference. 2: it could not be tried.
fn main() -> ExitCode {
    match Options::read().and_then(work) {
        Ok(true) => ExitCode::SUCCESS,
        Ok(false) => ExitCode::from(1),
        Err(message) => {
            eprintln!("{message}");
            ExitCode::from(2)
        }
    }
}

#[derive(Default)]
struct Options {
    port: Option<String>,
    oracle: Option<String>,
    seeds: Option<Range<u64>>,
    seed: Option<u64>,
    exact: bool,
    batch: Option<usize>,
    print: bool,
    quiet: bool,
    fixed: Option<usize>,
    out: Option<PathBuf>,
    random_bytes: Option<usize>,
    systems: bool,
    building: bool,
    oracle_alone: bool,
}

fn number<T: std::str::FromStr>(text: &str) -> Result<T, String> {
    text.parse()
        .map_err(|_| format!("{text} is no number here\n{USAGE}"))
}

fn seeds(text: &str) -> Result<Range<u64>, String> {
    let (from, to) = text
        .split_once("..")
        .ok_or(format!("{text} is no FROM..TO\n{USAGE}"))?;
    Ok(number(from)?..number(to)?)
}

impl Options {
    fn read() -> Result<Self, String> {
        let mut options = Options::default();
        let mut words = std::env::args().skip(1);
        while let Some(word) = words.next() {
            let mut next = || {
                words
                    .next()
                    .ok_or(format!("{word} wants something after it\n{USAGE}"))
            };
            match word.as_str() {
                "--port" => options.port = Some(next()?),
                "--oracle" => options.oracle = Some(next()?),
                "--seeds" => options.seeds = Some(seeds(&next()?)?),
                "--seed" => options.seed = Some(number(&next()?)?),
                "--sums" => options.exact = next()? == "exact",
                "--batch" => options.batch = Some(number(&next()?)?),
                "--print" => options.print = true,
                "--quiet" => options.quiet = true,
                "--systems" => options.systems = true,
                "--building" => options.building = true,
                "--oracle-alone" => options.oracle_alone = true,
                "--fixed" => options.fixed = Some(number(&next()?)?),
                "--out" => options.out = Some(PathBuf::from(next()?)),
                "--random-bytes" => options.random_bytes = Some(number(&next()?)?),
                _ => return Err(format!("{word} is no option\n{USAGE}")),
            }
        }
        Ok(options)
    }

    fn port(&self) -> Result<Program, String> {
        if self.oracle_alone {
            return self.oracle();
        }
        self.port
            .as_deref()
            .map(Program::new)
            .ok_or(format!("--port is missing\n{USAGE}"))
    }

    fn oracle(&self) -> Result<Program, String> {
        if let Some(text) = &self.oracle {
            return Ok(Program::new(text));
        }
        let beside = std::env::current_exe()
            .map_err(|e| e.to_string())?
            .with_file_name("oracle");
        Ok(Program::new(&beside.to_string_lossy()))
    }

    fn sums(&self) -> Sums {
        if self.exact {
            Sums::Exact
        } else {
            Sums::Change
        }
    }

    /// Script of a seed, made in conversation with a fresh oracle, so that it hangs on nothing but the seed.
    fn made(&self, oracle: &Program, seed: u64) -> Result<Vec<Line>, String> {
        let mut talk = Talk::new(&oracle.with(&["--marks"]))?;
        Ok(match (self.systems, self.building) {
            (true, true) => building_alone(system_script(seed, &mut talk)),
            (true, false) => system_script(seed, &mut talk),
            (false, _) => script(seed, &mut talk),
        })
    }

    fn seeds(&self) -> Result<Range<u64>, String> {
        self.seeds
            .clone()
            .ok_or(format!("--seeds is missing\n{USAGE}"))
    }
}

fn work(options: Options) -> Result<bool, String> {
    if options.print {
        let lines = options.made(
            &options.oracle()?,
            options.seed.ok_or(format!("--seed is missing\n{USAGE}"))?,
        )?;
        stdout()
            .write_all(&joined(&lines))
            .map_err(|e| e.to_string())?;
        Ok(true)
    } else if let Some(count) = options.random_bytes {
        random_bytes(&options, count)
    } else if let Some(wanted) = options.fixed {
        fixed(&options, wanted)
    } else {
        compared(&options)
    }
}

fn compared(options: &Options) -> Result<bool, String> {
    let oracle = options.oracle()?;
    let pair = Pair {
        port: options.port()?,
        oracle: oracle.with(&["--marks"]),
        sums: options.sums(),
    };
    let mut table = Table::default();
    let batch = options.batch.unwrap_or(20).max(1);
    let seeds: Vec<u64> = options.seeds()?.collect();
    for part in seeds.chunks(batch) {
        let mut scripts = vec![];
        for seed in part {
            scripts.push(options.made(&oracle, *seed)?);
        }
        let lines = scripts.concat();
        let result = pair.compare(&lines)?;
        if let Some(difference) = &result.difference {
            report(&pair, part, &scripts, difference)?;
            return Ok(false);
        }
        table.scripts += scripts.len();
        for (line, (mark, answer)) in lines.iter().zip(&result.answers) {
            table.add(line, *mark, answer);
        }
        if !options.quiet {
            eprintln!(
                "seeds {} to {}: {} lines equal",
                part[0],
                part[part.len() - 1],
                lines.len()
            );
        }
    }
    print!("{}", table.markdown());
    Ok(true)
}

/// Says where the two differ, and cuts that down.
fn report(
    pair: &Pair,
    seeds: &[u64],
    scripts: &[Vec<Line>],
    difference: &Difference,
) -> Result<(), String> {
    let (which, line) = place(scripts, difference.line);
    println!("seed {}, line {} of its script:", seeds[which], line + 1);
    println!("  {}", readable(&scripts[which][line]));
    println!("  port:   {}", difference.port);
    println!("  oracle: {}", difference.oracle);
    // Mostly the script alone shows it; else what came before is needed too.
    let alone = pair.compare(&scripts[which])?.difference.is_some();
    let start = if alone {
        scripts[which].clone()
    } else {
        scripts[..=which].concat()
    };
    let end = Instant::now() + CUTTING;
    let mut trials = 0;
    let mut failed = None;
    let small = cut(
        &start,
        |line| call_of(line, b""),
        |lines| {
            if Instant::now() > end {
                return None;
            }
            trials += 1;
            match pair.compare(lines) {
                Ok(result) => result.difference.map(|d| d.line),
                Err(message) => {
                    failed = Some(message);
                    None
                }
            }
        },
    );
    if let Some(message) = failed {
        return Err(message);
    }
    let early = if Instant::now() > end {
        ", ended for want of time"
    } else {
        ""
    };
    println!(
        "Cut down from {} to {} lines ({trials} trials{early}):",
        start.len(),
        small.len()
    );
    show(pair, &small)
}

/// Which script a line of the joined ones belongs to, and where it stands there.
fn place(scripts: &[Vec<Line>], mut line: usize) -> (usize, usize) {
    for (k, script) in scripts.iter().enumerate() {
        if line < script.len() {
            return (k, line);
        }
        line -= script.len();
    }
    let last = scripts.len() - 1;
    (last, scripts[last].len() - 1)
}

fn show(pair: &Pair, lines: &[Line]) -> Result<(), String> {
    let Compared {
        difference,
        answers,
        errors,
    } = pair.compare(lines)?;
    for (k, line) in lines.iter().enumerate() {
        let at = difference.as_ref().filter(|d| d.line == k);
        let answer = answers
            .get(k)
            .map_or("no answer".to_string(), |(_, answer)| readable(answer));
        println!("  {}", readable(line));
        match at {
            Some(d) => println!("    port:   {}\n    oracle: {}", d.port, d.oracle),
            None => println!("    both:   {answer}"),
        }
    }
    if difference.is_none() {
        println!("  (now they agree: one of the two does not answer the same to the same lines)");
    }
    if !errors.is_empty() {
        println!("Standard error:\n{errors}");
    }
    Ok(())
}

/// Answers of the oracle to lines, each script on its own in a joined input.
fn answered(oracle: &Program, lines: &[Line]) -> Result<Vec<Line>, String> {
    let outcome = oracle
        .with(&["--marks"])
        .run(&joined(lines), patience(lines.len()))?;
    let answers: Vec<Line> = outcome
        .answers()
        .into_iter()
        .map(|a| unmarked(a).1.to_vec())
        .collect();
    if answers.len() != lines.len() || !outcome.well() {
        return Err(format!(
            "the oracle gave {} answers to {} lines and {}\n{}",
            answers.len(),
            lines.len(),
            outcome.ending(),
            outcome.errors
        ));
    }
    Ok(answers)
}

/// Writes `stdin` and `stdout` of a sample with every pair of call and answer of the seeds.
fn fixed(options: &Options, wanted: usize) -> Result<bool, String> {
    let oracle = options.oracle()?;
    let mut scripts = vec![];
    for seed in options.seeds()? {
        let mut lines = options.made(&oracle, seed)?;
        if !options.exact {
            lines.retain(|line| !SUMS.contains(&line.as_slice()));
        }
        let answers = answered(&oracle, &lines)?;
        scripts.push(Answered { lines, answers });
    }
    let mut lines = vec![];
    for k in chosen(&scripts, wanted) {
        lines.extend(scripts[k].lines.iter().cloned());
    }
    let answers = answered(&oracle, &lines)?;
    let folder = options.out.clone().unwrap_or(PathBuf::from("."));
    fs::create_dir_all(&folder).map_err(|e| e.to_string())?;
    fs::write(folder.join("stdin"), joined(&lines)).map_err(|e| e.to_string())?;
    fs::write(folder.join("stdout"), joined(&answers)).map_err(|e| e.to_string())?;
    let mut table = Table::default();
    for (line, answer) in lines.iter().zip(&answers) {
        table.add(line, None, answer);
    }
    println!(
        "{} lines; {} pairs of call and answer; {:.1} % accepted steps, sends, receives and waits",
        lines.len(),
        table.pairs().len(),
        table.share()
    );
    Ok(true)
}

fn random_bytes(options: &Options, count: usize) -> Result<bool, String> {
    let seed = options.seed.ok_or(format!("--seed is missing\n{USAGE}"))?;
    let input = junk::junk(count, seed);
    let limit = patience(junk::lines_of(&input)) + Duration::from_micros(count as u64);
    let port = options.port()?;
    let outcome = port.run(&input, limit)?;
    if let Some(message) = junk::wrong(&input, &outcome) {
        println!("seed {seed}, {count} bytes: {message}");
        return Ok(false);
    }
    println!(
        "seed {seed}, {count} bytes: {} lines, an answer to each, status 0",
        junk::lines_of(&input)
    );
    if options.oracle.is_none() {
        return Ok(true);
    }
    // The same lines on both sides, cut down where they differ.
    let mut lines: Vec<Line> = input.split(|b| *b == b'\n').map(<[u8]>::to_vec).collect();
    if lines.last().is_some_and(|line| line.is_empty()) {
        lines.pop();
    }
    let pair = Pair {
        port,
        oracle: options.oracle()?.with(&["--marks"]),
        sums: options.sums(),
    };
    match pair.compare(&lines)?.difference {
        None => Ok(true),
        Some(difference) => {
            report(&pair, &[seed], &[lines], &difference)?;
            Ok(false)
        }
    }
}
