//! Runs the files of `tests`: `LINE => ANSWER`, or `LINE => ANSWER => RUST` where the Rust does otherwise. The mark stands
//! before an answer where it matters; `--` starts a comment.

use answers::oracle::{Mark, Oracle};
use std::{fs, path::Path};

#[test]
fn every_line_has_its_answer() {
    let folder = Path::new(env!("CARGO_MANIFEST_DIR")).join("../tests");
    let mut files = 0;
    for file in fs::read_dir(folder).expect("the folder of scripts") {
        let path = file.expect("a script").path();
        run(&path);
        files += 1;
    }
    assert!(files > 0, "no scripts");
}

fn run(path: &Path) {
    let text = fs::read_to_string(path).expect("a text");
    let mut oracle = Oracle::new(true);
    for (number, row) in (1..)
        .zip(text.lines())
        .filter(|(_, row)| !row.starts_with("--"))
    {
        let (line, expected) = row.split_once(" => ").expect("LINE => ANSWER");
        let reply = oracle.answer(Some(line.as_bytes())).expect("agreement");
        let mut answer = reply.answer.to_string();
        if expected.starts_with(['R', 'P']) {
            let mark = if reply.mark == Mark::Rust { "R" } else { "P" };
            answer = format!("{mark} {answer}");
        }
        let place = format!("{}:{number}: {line}", path.display());
        match expected.split_once(" => ") {
            None => assert_eq!(answer, expected, "{place}"),
            Some((expected, theirs)) => {
                assert_eq!(answer, expected, "{place}");
                assert_eq!(reply.departs.as_deref(), Some(theirs), "{place}");
            }
        }
    }
}
