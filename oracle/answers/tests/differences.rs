//! Runs the scripts of docs/DIFFERENCES.md that are about the channel layer, and holds the oracle and the Rust to what the page
//! says: `LINE => ANSWER Rust: WHAT`. A line without an answer has to be accepted; `(N times)` repeats one.

use answers::oracle::Oracle;
use std::{fs, path::Path};

/// A line, its answer, and what the Rust does.
struct Row<'a> {
    text: &'a str,
    line: &'a str,
    times: usize,
    answer: Option<&'a str>,
    rust: Option<&'a str>,
}

fn row(text: &str) -> Row<'_> {
    let (line, said) = match text.split_once(" => ") {
        Some((line, said)) => (line.trim(), Some(said)),
        None => (text.trim(), None),
    };
    let (line, times) = match line.split_once("  (") {
        Some((line, times)) => {
            let times = times.strip_suffix(" times)").expect("(N times)");
            (line, times.parse().expect("a number"))
        }
        None => (line, 1),
    };
    let (answer, rust) = match said.map(|said| said.split_once("Rust: ")) {
        None => (None, None),
        Some(None) => (said.map(str::trim), None),
        Some(Some((answer, rust))) => (Some(answer.trim()), Some(rust)),
    };
    Row {
        text,
        line,
        times,
        answer,
        rust,
    }
}

fn answered(oracle: &mut Oracle, row: &Row) {
    let reply = oracle.answer(Some(row.line.as_bytes())).expect("agreement");
    let answer = reply.answer.to_string();
    match row.answer {
        Some(expected) => assert_eq!(answer, expected, "{}", row.text),
        None => assert!(answer.starts_with("ok"), "{}: {answer}", row.text),
    }
    match row.rust {
        None => {}
        Some("the same") => assert_eq!(reply.departs, None, "{}", row.text),
        Some(theirs) => assert_eq!(reply.departs.as_deref(), Some(theirs), "{}", row.text),
    }
}

#[test]
fn the_page_says_what_is_so() {
    let page = Path::new(env!("CARGO_MANIFEST_DIR")).join("../../docs/DIFFERENCES.md");
    let page = fs::read_to_string(page).expect("the page");
    let section = page
        .split("\n## ")
        .find(|section| section.starts_with("The channel layer"))
        .expect("the section");
    let mut oracle = Oracle::new(true);
    let (mut answers, mut departures) = (0, 0);
    for text in section.lines().filter_map(|line| line.strip_prefix("    ")) {
        let row = row(text);
        for _ in 0..row.times {
            answered(&mut oracle, &row);
        }
        answers += usize::from(row.answer.is_some());
        departures += usize::from(row.rust.is_some_and(|rust| rust != "the same"));
    }
    assert!(
        answers > 30 && departures > 15,
        "{answers} and {departures}"
    );
}
