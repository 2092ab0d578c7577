//! Replays a recording of the shaping conversation from a fresh system, and tells what it finds in words.
//!
//!     replay FILE
//!
//! It ends with 0 if every record answers as it was recorded, with 1 if there is a finding, with 2 if there is no such file. Standard
//! error has how far it is, once that takes longer than a second.

#[path = "shaping/system.rs"]
#[allow(dead_code)]
mod system;

use njunnemar::channel_system::{ChannelSystemRun, CsError, PgId};
use njunnemar::recording::{BLOCK, Call, Record, ReplayError, fault, record_at, told};
use std::{
    fs::File,
    io::{self, Read},
    path::Path,
    process::ExitCode,
    sync::mpsc::channel,
    thread,
    time::{Duration, Instant},
};
use system::{Graph, Shaping};

const SECOND: Duration = Duration::from_secs(1);

/// The bytes of a file, with progress.
fn read(path: &Path) -> io::Result<Vec<u8>> {
    let mut file = File::open(path)?;
    let length = file.metadata()?.len();
    let mut bytes = Vec::with_capacity(length as usize);
    let mut last = Instant::now();
    while file.by_ref().take(1 << 20).read_to_end(&mut bytes)? > 0 {
        if last.elapsed() > SECOND {
            last = Instant::now();
            eprintln!("read {} of {} MiB", bytes.len() >> 20, length >> 20);
        }
    }
    Ok(bytes)
}

/// The replay, with how long it has taken so far.
fn replay(run: &mut ChannelSystemRun<'_>, bytes: &[u8]) -> Result<u64, ReplayError> {
    let start = Instant::now();
    thread::scope(|scope| {
        let (done, wait) = channel::<()>();
        scope.spawn(move || {
            // The sender is dropped when the replay has ended.
            while let Err(std::sync::mpsc::RecvTimeoutError::Timeout) = wait.recv_timeout(SECOND) {
                eprintln!("replaying {} blocks, for {} s", bytes.len().div_ceil(BLOCK), start.elapsed().as_secs());
            }
        });
        let answer = run.replay(bytes);
        drop(done);
        answer
    })
}

/// `tab: give up, to late`, or `500 pass`
fn call(shaping: &Shaping, record: &Record) -> String {
    let names = &shaping.names;
    match &record.call {
        Call::Step { pg_id, action, post, .. } => {
            let posts: Vec<String> = post.iter().map(|post| names.of_location(*post)).collect();
            format!("{}: {}, to {}", names.of_graph(*pg_id), names.of_action(*action), posts.join(" and "))
        }
        Call::Wait { delta } => format!("{delta} pass"),
    }
}

/// `tab is idle: page 1, shaped 1, glyphs 118; since begun 37`
fn state(shaping: &Shaping, run: &ChannelSystemRun<'_>, graph: &Graph) -> Result<String, CsError> {
    let names = &shaping.names;
    let of_graph = |refusal| CsError::ProgramGraph(graph.id, refusal);
    let of_run = run.program_graph(graph.id)?;
    let places = of_run.current_states();
    let there = graph.locations.iter().filter(|location| places.contains(&location.in_graph()));
    let there: Vec<String> = there.map(|location| names.of_location(*location)).collect();
    let mut held = vec![];
    for var in &graph.vars {
        held.push(format!("{} {}", names.of_var(*var), of_run.value(var.in_graph()).map_err(of_graph)?));
    }
    let reads = of_run.clock(graph.clock.in_graph()).map_err(of_graph)?;
    let (who, clock) = (names.of_graph(graph.id), names.of_clock(graph.clock));
    Ok(format!("{who} is {}: {}; {clock} {reads}", there.join(" and "), held.join(", ")))
}

/// What stands against a call that was ok and is refused here, and the graph that it speaks of.
fn cause(shaping: &Shaping, before: &ChannelSystemRun<'_>, record: &Record) -> (Option<String>, Option<PgId>) {
    let names = &shaping.names;
    match &record.call {
        Call::Step { pg_id, action, post, word } => {
            let cause = match before.why_with(*pg_id, *action, post, *word) {
                Ok(Some(cause)) => Some(names.of_cause(&cause)),
                Err(refusal) if refusal.number() == 13 => Some("not told of a communication".to_string()),
                Ok(None) | Err(_) => None,
            };
            (cause, Some(*pg_id))
        }
        Call::Wait { delta } => match before.clone().wait(*delta) {
            Err(CsError::ProgramGraph(pg_id, _)) => (Some(format!("an invariant of {}", names.of_graph(pg_id))), Some(pg_id)),
            _ => (None, None),
        },
    }
}

/// What is said, and whether all went as it was recorded.
fn findings(shaping: &Shaping, bytes: &[u8]) -> Result<(Vec<String>, bool), Box<dyn std::error::Error>> {
    let mut run = shaping.system.new_instance();
    let graphs = [&shaping.tab, &shaping.shaper, &shaping.loader];
    let found = match replay(&mut run, bytes) {
        Ok(records) => {
            let mut said = vec![format!("{records} records in {} blocks, each answered as it was recorded", bytes.len() / BLOCK)];
            said.push(format!("the time is {}", run.time()));
            for graph in graphs {
                said.push(state(shaping, &run, graph)?);
            }
            return Ok((said, true));
        }
        Err(found) => found,
    };
    let mut said = vec![];
    match found {
        ReplayError::BadBlock { block } => {
            let fault = fault(bytes, block).map_or_else(String::new, |fault| format!(": {fault}"));
            said.push(format!("{found}{fault}"));
            run.replay_before(bytes, block, 0)?;
            said.push(format!("the blocks before it are as recorded; the time is {} then", run.time()));
        }
        ReplayError::Differs { block, record, recorded, given } => {
            said.push(format!("record {record} of block {block} differs"));
            run.replay_before(bytes, block, record)?;
            let differs = record_at(bytes, block, record).ok_or("a record")?;
            said.push(format!("time     {}", run.time()));
            said.push(format!("call     {}", call(shaping, &differs)));
            said.push(format!("recorded {}", told(recorded)));
            said.push(format!("here     {}", told(given)));
            let (cause, pg_id) = cause(shaping, &run, &differs);
            if let (0, 8 | 9, Some(cause)) = (recorded, given, cause) {
                said.push(format!("cause    {cause}"));
            }
            if let Some(graph) = graphs.iter().find(|graph| Some(graph.id) == pg_id) {
                said.push(format!("state    {}", state(shaping, &run, graph)?));
            }
        }
        ReplayError::BadState | ReplayError::Unnamed(_) => said.push(found.to_string()),
    }
    Ok((said, false))
}

fn main() -> ExitCode {
    let arguments: Vec<String> = std::env::args().skip(1).collect();
    let [file] = &arguments[..] else {
        eprintln!("replay FILE");
        return ExitCode::from(2);
    };
    let path = Path::new(file);
    let bytes = match read(path) {
        Ok(bytes) => bytes,
        Err(error) => {
            eprintln!("{file}: {error}");
            return ExitCode::from(2);
        }
    };
    let told = Shaping::new().map_err(Into::into).and_then(|shaping| findings(&shaping, &bytes));
    match told {
        Ok((said, well)) => {
            println!("{}: {}", path.file_name().unwrap_or_default().to_string_lossy(), said.join("\n  "));
            ExitCode::from(if well { 0 } else { 1 })
        }
        Err(error) => {
            eprintln!("{file}: {error}");
            ExitCode::from(2)
        }
    }
}
