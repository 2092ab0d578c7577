//! The whole program against two stand-ins with a planted difference.

use std::path::Path;
use std::process::{Command, Output};

use compare::cut::cut;
use compare::differ::{Pair, Sums};
use compare::maker::Line;
use compare::programs::Program;

fn fake(fault: &str) -> String {
    format!("sh {}/tests/fake.sh {fault}", env!("CARGO_MANIFEST_DIR"))
}

fn compare(port: &str, more: &[&str]) -> Output {
    Command::new(env!("CARGO_BIN_EXE_compare"))
        .args(["--oracle", &fake("none 0"), "--port", &fake(port)])
        .args(more)
        .output()
        .expect("the program starts")
}

fn text(output: &Output) -> String {
    String::from_utf8_lossy(&output.stdout).into_owned()
}

fn pair(port: &str, sums: Sums) -> Pair {
    Pair {
        port: Program::new(&fake(port)),
        oracle: Program::new(&fake("none 0")),
        sums,
    }
}

fn lines(text: &[&str]) -> Vec<Line> {
    text.iter().map(|line| line.as_bytes().to_vec()).collect()
}

#[test]
fn equal_programs_give_a_table() {
    let output = compare("none 0", &["--seeds", "0..4", "--batch", "2"]);
    assert_eq!(output.status.code(), Some(0), "{}", text(&output));
    assert!(
        text(&output).contains("| scripts | 4 |"),
        "{}",
        text(&output)
    );
    assert!(text(&output).contains("| `r wait` |"));
}

#[test]
fn a_planted_difference_is_found_and_cut_down() {
    let output = compare("wait 12", &["--seeds", "0..3"]);
    assert_eq!(output.status.code(), Some(1));
    let text = text(&output);
    assert!(text.contains("port:   refused 9\n  oracle: ok"), "{text}");
    // Twelve waits and nothing else.
    assert!(text.contains(" to 12 lines"), "{text}");
}

#[test]
fn lines_that_hang_together_stay() {
    let pair = pair("var 0", Sums::Change);
    let script = lines(&[
        "g new", "g clock", "g var b0", "g clock", "r new", "r show", "r can 1", "r wait 3",
        "r show",
    ]);
    let small = cut(
        &script,
        |line| line[0],
        |lines| pair.compare(lines).unwrap().difference.map(|d| d.line),
    );
    assert_eq!(small, lines(&["g var b0", "r new", "r wait 3"]));
}

#[test]
fn a_program_that_dies_is_a_difference() {
    let output = compare("die 25", &["--seeds", "0..1"]);
    assert_eq!(output.status.code(), Some(1));
    let text = text(&output);
    assert!(
        text.contains("the last one was to line 25; ended with status 7"),
        "{text}"
    );
    assert!(
        text.contains(" to 25 lines") || text.contains(" to 26 lines"),
        "{text}"
    );
}

#[test]
fn more_answers_and_a_bad_status_are_differences() {
    let script = lines(&["r waiting", "g clock", "r waiting"]);
    assert!(
        pair("none 0", Sums::Exact)
            .compare(&script)
            .unwrap()
            .difference
            .is_none()
    );
    assert!(
        pair("twice 3", Sums::Exact)
            .compare(&script)
            .unwrap()
            .difference
            .is_some()
    );
    assert!(
        pair("status 1", Sums::Exact)
            .compare(&script)
            .unwrap()
            .difference
            .is_some()
    );
}

#[test]
fn sums_are_compared_by_their_change() {
    let script = lines(&["g new", "sum g", "g process 9", "sum g"]);
    assert!(
        pair("sums 5", Sums::Change)
            .compare(&script)
            .unwrap()
            .difference
            .is_none()
    );
    assert_eq!(
        pair("sums 5", Sums::Exact)
            .compare(&script)
            .unwrap()
            .difference
            .map(|d| d.line),
        Some(1)
    );
    assert_eq!(
        pair("touch 0", Sums::Change)
            .compare(&script)
            .unwrap()
            .difference
            .map(|d| d.line),
        Some(3)
    );
    // Over a new graph nothing is compared.
    let apart = lines(&["sum g", "g process 9", "g new", "sum g"]);
    assert!(
        pair("touch 0", Sums::Change)
            .compare(&apart)
            .unwrap()
            .difference
            .is_none()
    );
}

#[test]
fn a_script_is_printed_twice_the_same() {
    let one = compare("none 0", &["--print", "--seed", "5"]);
    let two = compare("none 0", &["--print", "--seed", "5"]);
    assert_eq!(one.stdout, two.stdout);
    assert!(one.stdout.starts_with(b"g new\n"));
}

#[test]
fn random_bytes_are_counted() {
    // The shell's `read` loses zero bytes, but no lines, unless a last one has nothing else.
    let good = compare("none 0", &["--random-bytes", "20000", "--seed", "1"]);
    assert_eq!(good.status.code(), Some(0), "{}", text(&good));
    let bad = compare("die 30", &["--random-bytes", "20000", "--seed", "1"]);
    assert_eq!(bad.status.code(), Some(1));
    assert!(text(&bad).contains("30 answers to "), "{}", text(&bad));
}

#[test]
fn a_sample_is_written() {
    let folder = Path::new(env!("CARGO_TARGET_TMPDIR")).join("sample");
    let output = compare(
        "none 0",
        &[
            "--fixed",
            "400",
            "--seeds",
            "0..6",
            "--out",
            &folder.to_string_lossy(),
        ],
    );
    assert_eq!(
        output.status.code(),
        Some(0),
        "{}",
        String::from_utf8_lossy(&output.stderr)
    );
    let read = |name: &str| std::fs::read(folder.join(name)).unwrap();
    let count = |bytes: &[u8]| bytes.iter().filter(|b| **b == b'\n').count();
    assert!(count(&read("stdin")) >= 400);
    assert_eq!(count(&read("stdin")), count(&read("stdout")));
}

#[test]
fn what_cannot_be_tried_is_said() {
    let output = Command::new(env!("CARGO_BIN_EXE_compare"))
        .args(["--port", "no-such-program", "--seeds", "0..1"])
        .output()
        .unwrap();
    assert_eq!(output.status.code(), Some(2));
    let output = Command::new(env!("CARGO_BIN_EXE_compare"))
        .args(["--nonsense"])
        .output()
        .unwrap();
    assert_eq!(output.status.code(), Some(2));
}
