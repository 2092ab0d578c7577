//! Why a step was refused with 8: a client wants to ask again, and one of what its transition asks for fails.
//!
//! Standard output has the cause in words, by names and by numbers; with `--svg` it has a picture of the transition, what it asks for in the order in
//! which that is looked at, and where it failed. The picture is drawn from what the run and the cause say.

use njunnemar::channel_system::{Cause, ChannelSystemBuilder, ChannelSystemRun, Clock, CsError, Fails, Var};
use njunnemar::{BooleanExpr, IntegerExpr, Names, TimeRange, Val};
use std::fmt::Write;

/// Something that the transition asks for: its sort, how it is written, and what is read for it.
struct Asked {
    sort: &'static str,
    text: String,
    reads: String,
}

fn reading(names: &Names, run: &ChannelSystemRun<'_>, clock: Clock) -> Result<String, CsError> {
    let of_graph = |refusal| CsError::ProgramGraph(clock.pg_id(), refusal);
    let reads = run.program_graph(clock.pg_id())?.clock(clock.in_graph()).map_err(of_graph)?;
    Ok(format!("{} is {reads}", names.of_clock(clock)))
}

fn holding(names: &Names, run: &ChannelSystemRun<'_>, var: Var) -> Result<String, CsError> {
    let of_graph = |refusal| CsError::ProgramGraph(var.pg_id(), refusal);
    let val = run.program_graph(var.pg_id())?.value(var.in_graph()).map_err(of_graph)?;
    Ok(format!("{} is {val}", names.of_var(var)))
}

/// Which of the guard, the limits and the invariants the cause names.
fn failing(cause: &Cause, limits: usize) -> Option<usize> {
    match &cause.fails {
        Fails::NoCandidate => None,
        Fails::Guard { .. } => Some(0),
        Fails::Limit(limit) => Some(1 + limit.number as usize),
        Fails::Invariant { limit, .. } => Some(1 + limits + limit.number as usize),
    }
}

fn timed(names: &Names, run: &ChannelSystemRun<'_>, sort: &'static str, limits: &[(Clock, TimeRange)]) -> Result<Vec<Asked>, CsError> {
    let asked = |(clock, range): &(Clock, TimeRange)| {
        Ok(Asked { sort, text: range.of(&names.of_clock(*clock)), reads: reading(names, run, *clock)? })
    };
    limits.iter().map(asked).collect()
}

fn main() -> Result<(), CsError> {
    let (mut b, mut names) = (ChannelSystemBuilder::new(), Names::new());
    let client = names.graph(b.new_program_graph()?, "client");
    let tries = names.var(b.new_var(client, Val::from(0))?, "tries");
    let closed = names.var(b.new_var(client, Val::from(false))?, "closed");
    let begun = names.clock(b.new_clock(client)?, "since begun");
    let asked = names.clock(b.new_clock(client)?, "since asked");
    let refused = names.clock(b.new_clock(client)?, "since refused");
    let until = vec![(begun, TimeRange::new(..=100))];
    let waiting = names.location(b.new_initial_location(client)?, "waiting");
    let asking = names.location(b.new_timed_location(client, until.clone())?, "asking");
    let refuse = names.action(b.new_action(client)?, "take refusal");
    b.add_reset(client, refuse, refused)?;
    b.add_effect(client, refuse, tries, (IntegerExpr::from(tries) + 1.into()).into())?;
    b.add_transition(client, waiting, refuse, waiting, None)?;
    let again = names.action(b.new_action(client)?, "ask again");
    let guard = IntegerExpr::from(tries).less_than(3.into()) & !BooleanExpr::from(closed);
    let limits = vec![(asked, TimeRange::new(10..)), (refused, TimeRange::new(30..=60))];
    b.add_timed_transition(client, waiting, again, asking, Some(guard.clone()), limits.clone())?;
    let system = b.build()?;

    let mut run = system.new_instance();
    run.wait(8)?;
    run.transition(client, refuse, &[waiting])?;
    run.wait(12)?;
    let refusal = run.transition(client, again, &[asking]).expect_err("too early");
    let cause = run.why(client, again, &[asking])?.expect("a cause");
    let told = format!("refused {}, {}", refusal.number(), refusal.name());
    if std::env::args().all(|argument| argument != "--svg") {
        println!("{told}\n{}\n{cause}", names.of_cause(&cause));
        return Ok(());
    }
    let held = [holding(&names, &run, tries)?, holding(&names, &run, closed)?].join(", ");
    let mut all = vec![Asked { sort: "guard", text: guard.written(&|var| names.of_var(var)), reads: held }];
    all.extend(timed(&names, &run, "limit", &limits)?);
    let there = format!(" of {}", names.of_location(asking));
    all.extend(timed(&names, &run, "invariant", &until)?.into_iter().map(|asked| Asked { text: asked.text + &there, ..asked }));
    let picture = Picture {
        graph: names.of_graph(client),
        places: [names.of_location(waiting), names.of_location(asking)],
        action: names.of_action(again),
        time: run.time(),
        answers: [told, names.of_cause(&cause)],
    };
    print!("{}", picture.draw(&all, failing(&cause, limits.len())));
    Ok(())
}

struct Picture {
    graph: String,
    places: [String; 2],
    action: String,
    time: u32,
    answers: [String; 2],
}

const WIDTH: i32 = 760;
const ROW: i32 = 32;
const FIRST: i32 = 196;

const INK: &str = "#1f2328";
const QUIET: &str = "#6e7781";
const LINE: &str = "#8c959f";
const EDGE: &str = "#d0d7de";
const GREEN: &str = "#1a7f37";
const RED: &str = "#cf222e";
const PINK: &str = "#ffebe9";
const GREY: &str = "#f6f8fa";

fn escaped(text: &str) -> String {
    text.replace('&', "&amp;").replace('<', "&lt;").replace('>', "&gt;")
}

fn text((x, y): (i32, i32), anchor: &str, colour: &str, style: &str, text: &str) -> String {
    format!("<text x=\"{x}\" y=\"{y}\" text-anchor=\"{anchor}\" fill=\"{colour}\" {style}>{}</text>\n", escaped(text))
}

fn boxed((x, y): (i32, i32), (wide, high): (i32, i32), fill: &str, edge: &str) -> String {
    format!("<rect x=\"{x}\" y=\"{y}\" width=\"{wide}\" height=\"{high}\" rx=\"6\" fill=\"{fill}\" stroke=\"{edge}\"/>\n")
}

impl Picture {
    /// The two locations and the transition, and below what it asks for: what was looked at before the part that fails holds, what comes
    /// after it was not looked at.
    fn draw(&self, all: &[Asked], failing: Option<usize>) -> String {
        let bottom = FIRST + ROW * all.len() as i32 - 20;
        let height = bottom + 96;
        let mut svg = format!(
            "<svg xmlns=\"http://www.w3.org/2000/svg\" viewBox=\"0 0 {WIDTH} {height}\" width=\"{WIDTH}\" height=\"{height}\" \
             font-family=\"system-ui, 'Segoe UI', Helvetica, Arial, sans-serif\" font-size=\"14\">\n\
             <title>Why it said 8</title>\n\
             <defs><marker id=\"head\" viewBox=\"0 0 10 10\" refX=\"9\" refY=\"5\" markerWidth=\"8\" markerHeight=\"8\" orient=\"auto\">\
             <path d=\"M0 0 L10 5 L0 10 z\" fill=\"{LINE}\"/></marker></defs>\n\
             <rect x=\"0.5\" y=\"0.5\" width=\"{}\" height=\"{}\" rx=\"10\" fill=\"#ffffff\" stroke=\"{EDGE}\"/>\n",
            WIDTH - 1,
            height - 1
        );
        let bold = "font-size=\"16\" font-weight=\"600\"";
        svg += &text((28, 36), "start", INK, bold, &format!("{}, at {}: why it may not {}", self.graph, self.time, self.action));
        svg += &self.transition();
        for (i, asked) in all.iter().enumerate() {
            svg += &row(asked, FIRST + ROW * i as i32, failing.map(|failing| i.cmp(&failing)));
        }
        svg += &boxed((28, bottom + 16), (WIDTH - 56, 58), GREY, EDGE);
        for (i, answer) in (0..).zip(&self.answers) {
            let mono = "font-family=\"ui-monospace, 'DejaVu Sans Mono', monospace\" font-size=\"13\"";
            svg += &text((44, bottom + 40 + 20 * i), "start", INK, mono, answer);
        }
        svg + "</svg>\n"
    }

    fn transition(&self) -> String {
        let mut svg = String::new();
        for (x, place) in [(60, &self.places[0]), (550, &self.places[1])] {
            svg += &boxed((x, 76), (150, 52), GREY, LINE);
            svg += &text((x + 75, 107), "middle", INK, "font-weight=\"600\"", place);
        }
        let _ = writeln!(svg, "<circle cx=\"80\" cy=\"102\" r=\"6\" fill=\"{INK}\"/>");
        svg += &text((80, 148), "middle", QUIET, "font-size=\"12\"", "process 0");
        let _ = writeln!(
            svg,
            "<line x1=\"210\" y1=\"102\" x2=\"548\" y2=\"102\" stroke=\"{LINE}\" stroke-width=\"1.6\" marker-end=\"url(#head)\"/>"
        );
        for slant in [-1, 1] {
            let (from, to) = (102 - 8 * slant, 102 + 8 * slant);
            let _ = writeln!(
                svg,
                "<line x1=\"372\" y1=\"{from}\" x2=\"388\" y2=\"{to}\" stroke=\"{RED}\" stroke-width=\"3\" stroke-linecap=\"round\"/>"
            );
        }
        svg + &text((380, 84), "middle", INK, "", &self.action)
    }
}

/// What is asked for, against the part that fails: before it, it, or after it.
fn row(asked: &Asked, y: i32, against: Option<std::cmp::Ordering>) -> String {
    use std::cmp::Ordering::{Equal, Less};
    let (mark, ink, said) = match against {
        Some(Less) => ("holds", INK, asked.reads.clone()),
        Some(Equal) => ("fails", RED, asked.reads.clone()),
        _ => ("", QUIET, "not looked at".to_string()),
    };
    let mut svg = String::new();
    if mark == "fails" {
        svg += &boxed((28, y - 21), (WIDTH - 56, ROW - 2), PINK, RED);
    }
    let colour = if mark == "fails" { RED } else { GREEN };
    let weight = if mark == "fails" { "font-weight=\"600\"" } else { "" };
    svg += &text((44, y), "start", colour, weight, mark);
    svg += &text((104, y), "start", QUIET, "", asked.sort);
    svg += &text((190, y), "start", ink, weight, &asked.text);
    svg + &text((470, y), "start", ink, weight, &said)
}
