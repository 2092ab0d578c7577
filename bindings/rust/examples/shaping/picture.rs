//! A picture of conversations: life lines, messages, clocks and refusals. Time goes down, a row for each thing that happened.

use std::fmt::Write;

/// What is drawn in a row.
#[derive(Clone, PartialEq)]
pub enum Mark {
    Did { who: String, what: String },
    Sent { from: String, to: String, channel: String, message: String },
    Taken { by: String, channel: String },
    MayNot { who: String, channel: Option<String>, what: String },
    TimeMayNot { what: String },
    Is { who: String, what: String },
    Holds { of: String, what: String },
}

/// A clock with a deadline: what it reads, and whether its graph is where the deadline holds.
#[derive(Clone, PartialEq)]
pub struct Clock {
    pub graph: String,
    pub name: String,
    pub reads: u32,
    pub most: u32,
    pub there: bool,
}

#[derive(Clone, PartialEq)]
struct Row {
    time: u32,
    mark: Mark,
    clocks: Vec<Clock>,
}

pub struct Scene {
    title: String,
    rows: Vec<Row>,
}

impl Scene {
    pub fn new(title: &str) -> Self {
        Scene { title: title.to_string(), rows: vec![] }
    }

    pub fn add(&mut self, time: u32, mark: Mark, clocks: Vec<Clock>) {
        self.rows.push(Row { time, mark, clocks });
    }
}

const WIDTH: i32 = 960;
const ROW: i32 = 32;
const AXIS: i32 = 48;
const HEAD: i32 = 84;
const FIRST: i32 = 256;
const APART: i32 = 272;

const INK: &str = "#1f2328";
const QUIET: &str = "#6e7781";
const LINE: &str = "#8c959f";
const BLUE: &str = "#0969da";
const RED: &str = "#cf222e";
const PINK: &str = "#ffebe9";
const AMBER: &str = "#9a6700";
const SAND: &str = "#fff8c5";
const GREY: &str = "#f6f8fa";

/// The conversations, one below the other. What a later one shares with the first from its start on is drawn once.
pub fn draw(graphs: &[&str], scenes: &[Scene]) -> String {
    let mut canvas = Canvas { graphs, text: String::new() };
    let mut top = 16;
    let mut shared: &[Row] = &[];
    for scene in scenes {
        let same = scene.rows.iter().zip(shared).take_while(|(a, b)| a == b).count();
        top = canvas.scene(scene, same, top);
        if shared.is_empty() {
            shared = &scene.rows;
        }
    }
    let note = "A bar is a location with a deadline: what its clock read when it was left, and the most that it may read.";
    canvas.text(24, top + 14, "start", QUIET, 12, note);
    let height = top + 34;
    format!(
        "<svg xmlns=\"http://www.w3.org/2000/svg\" viewBox=\"0 0 {WIDTH} {height}\" width=\"{WIDTH}\" height=\"{height}\" \
         font-family=\"system-ui, 'Segoe UI', Helvetica, Arial, sans-serif\">\n\
         <title>The shaping conversation</title>\n\
         <defs>\n<marker id=\"head\" viewBox=\"0 0 10 10\" refX=\"9\" refY=\"5\" markerWidth=\"8\" markerHeight=\"8\" orient=\"auto\">\
         <path d=\"M0 0 L10 5 L0 10 z\" fill=\"{BLUE}\"/></marker>\n</defs>\n\
         <rect x=\"0.5\" y=\"0.5\" width=\"{}\" height=\"{}\" rx=\"10\" fill=\"#ffffff\" stroke=\"#d0d7de\"/>\n{}</svg>\n",
        WIDTH - 1,
        height - 1,
        canvas.text
    )
}

struct Canvas<'a> {
    graphs: &'a [&'a str],
    text: String,
}

/// How wide a text of this size comes out, about.
fn width(size: i32, text: &str) -> i32 {
    text.chars().count() as i32 * size * 54 / 100
}

fn escaped(text: &str) -> String {
    text.replace('&', "&amp;").replace('<', "&lt;").replace('>', "&gt;")
}

impl Canvas<'_> {
    /// The life line of a graph.
    fn x(&self, graph: &str) -> Option<i32> {
        let place = self.graphs.iter().position(|name| *name == graph)?;
        Some(FIRST + APART * place as i32)
    }

    fn put(&mut self, element: String) {
        self.text.push_str(&element);
        self.text.push('\n');
    }

    fn text(&mut self, x: i32, y: i32, anchor: &str, colour: &str, size: i32, text: &str) {
        self.put(format!(
            "<text x=\"{x}\" y=\"{y}\" text-anchor=\"{anchor}\" font-size=\"{size}\" fill=\"{colour}\" stroke=\"#ffffff\" \
             stroke-width=\"4\" stroke-linejoin=\"round\" paint-order=\"stroke\">{}</text>",
            escaped(text)
        ));
    }

    /// A box with a text in its middle.
    fn label(&mut self, (x, y): (i32, i32), text: &str, ink: &str, fill: &str, edge: &str) {
        let wide = width(13, text) + 20;
        self.put(format!(
            "<rect x=\"{}\" y=\"{}\" width=\"{wide}\" height=\"24\" rx=\"6\" fill=\"{fill}\" stroke=\"{edge}\"/>\n\
             <text x=\"{x}\" y=\"{}\" text-anchor=\"middle\" font-size=\"13\" fill=\"{ink}\">{}</text>",
            x - wide / 2,
            y - 12,
            y + 5,
            escaped(text)
        ));
    }

    fn line(&mut self, (x, y): (i32, i32), (to_x, to_y): (i32, i32), style: &str) {
        self.put(format!("<line x1=\"{x}\" y1=\"{y}\" x2=\"{to_x}\" y2=\"{to_y}\" {style}/>"));
    }

    /// Draws a scene from `top` on and answers where it ends. The first `same` rows are those of the first scene.
    fn scene(&mut self, scene: &Scene, same: usize, top: i32) -> i32 {
        let first = top + HEAD;
        let above = usize::from(same > 0);
        // The row of a thing that happened; all that is shared has one row.
        let y = |row: usize| first + ROW * ((row + above).saturating_sub(same.max(above)) as i32).max(0);
        let rows = scene.rows.len() + above - same;
        let bottom = first + ROW * rows as i32;
        self.put(format!(
            "<text x=\"24\" y=\"{}\" font-size=\"16\" font-weight=\"600\" fill=\"{INK}\">{}</text>",
            top + 18,
            escaped(&scene.title)
        ));
        self.text(AXIS, top + 53, "end", QUIET, 12, "time");
        for graph in self.graphs {
            let x = self.x(graph).unwrap_or(0);
            self.line((x, top + 60), (x, bottom - 8), &format!("stroke=\"{LINE}\" stroke-dasharray=\"2 3\""));
        }
        self.clocks(scene, y, same);
        for graph in self.graphs {
            let x = self.x(graph).unwrap_or(0);
            self.put(format!(
                "<rect x=\"{}\" y=\"{}\" width=\"92\" height=\"26\" rx=\"6\" fill=\"{GREY}\" stroke=\"{LINE}\"/>\n\
                 <text x=\"{x}\" y=\"{}\" text-anchor=\"middle\" font-size=\"14\" font-weight=\"600\" fill=\"{INK}\">{}</text>",
                x - 46,
                top + 36,
                top + 54,
                escaped(graph)
            ));
        }
        let mut last = None;
        if same > 0 {
            let time = scene.rows[same - 1].time;
            self.text(AXIS, first + 5, "end", INK, 13, &time.to_string());
            self.label((FIRST + APART, first), &format!("until {time} as above"), QUIET, "#ffffff", "#d0d7de");
            last = Some(time);
        }
        for (row, happened) in scene.rows.iter().enumerate().skip(same) {
            if last != Some(happened.time) {
                self.text(AXIS, y(row) + 5, "end", INK, 13, &happened.time.to_string());
                last = Some(happened.time);
            }
            self.mark(scene, row, y);
        }
        bottom + 14
    }

    /// A bar for each stay at a location with a deadline, and what the clock read at its end.
    fn clocks(&mut self, scene: &Scene, y: impl Fn(usize) -> i32, same: usize) {
        let deadlines = scene.rows.first().map_or(0, |row| row.clocks.len());
        for deadline in 0..deadlines {
            let mut since = None;
            for (row, happened) in scene.rows.iter().enumerate() {
                let clock = &happened.clocks[deadline];
                match (since, clock.there) {
                    (None, true) => since = Some(row),
                    (Some(start), false) => {
                        since = None;
                        if clock.reads > 0 && row >= same {
                            self.bar(clock, y(start), y(row));
                        }
                    }
                    _ => {}
                }
            }
        }
    }

    fn bar(&mut self, clock: &Clock, from: i32, to: i32) {
        let Some(x) = self.x(&clock.graph) else { return };
        let reached = clock.reads >= clock.most;
        let (fill, edge, ink) = if reached { (PINK, RED, RED) } else { (SAND, "#d4a72c", AMBER) };
        self.put(format!(
            "<rect x=\"{}\" y=\"{from}\" width=\"12\" height=\"{}\" rx=\"4\" fill=\"{fill}\" stroke=\"{edge}\"/>",
            x - 6,
            to - from
        ));
        let (side, anchor) = if x > FIRST + APART { (x + 14, "start") } else { (x - 14, "end") };
        let middle = (from + to) / 2;
        self.text(side, middle - 3, anchor, ink, 12, &clock.name);
        self.text(side, middle + 12, anchor, ink, 12, &format!("{} of at most {}", clock.reads, clock.most));
    }

    fn mark(&mut self, scene: &Scene, row: usize, y: impl Fn(usize) -> i32) {
        let here = y(row);
        match &scene.rows[row].mark {
            Mark::Did { who, what } => {
                let Some(x) = self.x(who) else { return };
                self.put(format!("<circle cx=\"{x}\" cy=\"{here}\" r=\"4\" fill=\"{INK}\"/>"));
                let last = self.graphs.last() == Some(&who.as_str());
                let (side, anchor) = if last { (x - 14, "end") } else { (x + 14, "start") };
                self.text(side, here + 5, anchor, INK, 13, what);
            }
            Mark::Sent { from, to, channel, message } => {
                let Some(x) = self.x(from) else { return };
                let taken = scene.rows.iter().skip(row).position(|later| match &later.mark {
                    Mark::Taken { channel: on, .. } | Mark::MayNot { channel: Some(on), .. } => on == channel,
                    _ => false,
                });
                let at = taken.map(|later| row + later);
                let left_there = at.is_some_and(|at| matches!(scene.rows[at].mark, Mark::MayNot { .. }));
                match self.x(to) {
                    Some(to_x) => {
                        let gap = if left_there { 46 } else { 7 };
                        let end = (to_x + gap * (x - to_x).signum(), at.map_or(here, &y));
                        self.arrow((x, here), end, message);
                        if left_there {
                            self.queue(end);
                        }
                    }
                    None => {
                        let end = (AXIS + 66, here);
                        self.arrow((x, here), end, message);
                        self.label((AXIS + 44, here), to, QUIET, GREY, LINE);
                    }
                }
            }
            Mark::Taken { by, .. } => {
                let Some(x) = self.x(by) else { return };
                self.put(format!("<circle cx=\"{x}\" cy=\"{here}\" r=\"4\" fill=\"{BLUE}\"/>"));
            }
            Mark::MayNot { who, what, .. } => {
                let Some(x) = self.x(who) else { return };
                for slant in [-1, 1] {
                    let style = format!("stroke=\"{RED}\" stroke-width=\"3\" stroke-linecap=\"round\"");
                    self.line((x - 6, here - 6 * slant), (x + 6, here + 6 * slant), &style);
                }
                self.refusal((x - 18, here - 7), what);
            }
            Mark::TimeMayNot { what } => {
                let right = FIRST + APART * (self.graphs.len() as i32 - 1);
                let style = format!("stroke=\"{RED}\" stroke-dasharray=\"6 4\"");
                self.line((FIRST, here), (right + 40, here), &style);
                self.label((FIRST + APART, here), what, RED, PINK, RED);
            }
            Mark::Is { who, what } => {
                let Some(x) = self.x(who) else { return };
                self.label((x, here), what, INK, GREY, "#d0d7de");
            }
            Mark::Holds { of, what } => {
                let Some(x) = self.x(of) else { return };
                self.label((x, here), what, INK, GREY, "#d0d7de");
            }
        }
    }

    fn arrow(&mut self, from: (i32, i32), to: (i32, i32), message: &str) {
        self.put(format!("<circle cx=\"{}\" cy=\"{}\" r=\"4\" fill=\"{BLUE}\"/>", from.0, from.1));
        self.line(from, to, &format!("stroke=\"{BLUE}\" stroke-width=\"1.6\" marker-end=\"url(#head)\""));
        let (x, y) = ((from.0 + to.0) / 2, (from.1 + to.1) / 2);
        let (left, right) = if from.0 < to.0 { (from, to) } else { (to, from) };
        let angle = f64::from(right.1 - left.1).atan2(f64::from(right.0 - left.0)).to_degrees();
        self.put(format!("<g transform=\"rotate({angle:.1} {x} {y})\">"));
        self.text(x, y - 6, "middle", INK, 13, message);
        self.put("</g>".to_string());
    }

    /// A refusal, in two lines that end at `x`.
    fn refusal(&mut self, (x, y): (i32, i32), what: &str) {
        let (number, asked) = what.split_once(": ").unwrap_or((what, ""));
        let wide = width(13, number).max(width(13, asked)) + 20;
        self.put(format!(
            "<rect x=\"{}\" y=\"{}\" width=\"{wide}\" height=\"42\" rx=\"6\" fill=\"{PINK}\" stroke=\"{RED}\"/>",
            x - wide,
            y - 21
        ));
        for (line, text) in [(-3, number), (13, asked)] {
            self.put(format!(
                "<text x=\"{}\" y=\"{}\" text-anchor=\"middle\" font-size=\"13\" fill=\"{RED}\">{}</text>",
                x - wide / 2,
                y + line,
                escaped(text)
            ));
        }
    }

    /// A queue that a message stays in: three places, one of them taken.
    fn queue(&mut self, (x, y): (i32, i32)) {
        let mut boxes = String::new();
        for (place, fill) in [(0, "#ffffff"), (1, "#ffffff"), (2, "#b6e3ff")] {
            let _ = write!(
                boxes,
                "<rect x=\"{}\" y=\"{}\" width=\"9\" height=\"14\" fill=\"{fill}\" stroke=\"{BLUE}\"/>",
                x - 30 + 10 * place,
                y - 7
            );
        }
        self.put(boxes);
    }
}
