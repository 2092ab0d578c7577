//! The shaping conversation: a tab asks a shaper for a page, and the shaper asks a loader for a font.
//!
//! Three graphs are built once, and three conversations are watched by them. Standard output has who sent what to whom, when, and why
//! a step was refused; with `--svg` it has a picture of the same run. examples/shaping/README.md says what each conversation shows.

mod picture;
mod system;

use njunnemar::Val;
use njunnemar::channel_system::{Action, ChannelSystemRun, CsError, EventType, PgId};
use picture::{Mark, Scene};
use system::{Graph, Shaping};

/// A conversation that is watched: its run, what was said of it, and what is drawn of it.
struct Watcher<'a> {
    shaping: &'a Shaping,
    run: ChannelSystemRun<'a>,
    lines: Vec<String>,
    scene: Scene,
}

impl<'a> Watcher<'a> {
    fn new(shaping: &'a Shaping, title: &str) -> Self {
        let run = shaping.system.new_instance();
        Watcher { shaping, run, lines: vec![title.to_string()], scene: Scene::new(title) }
    }

    fn say(&mut self, who: &str, what: &str) {
        self.lines.push(format!("{:5}  {who:7} {what}", self.run.time()));
    }

    /// Something happened: it is said, drawn, and the deadlines are looked at.
    fn tell(&mut self, pg_id: PgId, what: &str, mark: Mark) -> Result<(), CsError> {
        self.say(&self.shaping.names.of_graph(pg_id), what);
        self.drawn(mark)
    }

    fn drawn(&mut self, mark: Mark) -> Result<(), CsError> {
        let mut clocks = vec![];
        for deadline in &self.shaping.deadlines {
            let graph = self.run.program_graph(deadline.at.pg_id())?;
            let there = graph.current_states().contains(&deadline.at.in_graph());
            let name = self.shaping.names.of_clock(deadline.clock);
            clocks.push(picture::Clock {
                graph: self.shaping.names.of_graph(deadline.at.pg_id()),
                name,
                reads: graph.clock(deadline.clock.in_graph()).map_err(|e| CsError::ProgramGraph(deadline.at.pg_id(), e))?,
                most: deadline.most,
                there,
            });
        }
        self.scene.add(self.run.time(), mark, clocks);
        Ok(())
    }

    /// A step that was seen: it is taken, or it is told why not.
    fn step(&mut self, graph: &Graph, action: usize, post: usize) -> Result<(), CsError> {
        self.step_by(graph, graph.actions[action], post)
    }

    fn step_by(&mut self, graph: &Graph, action: Action, post: usize) -> Result<(), CsError> {
        let names = &self.shaping.names;
        let (who, name) = (names.of_graph(graph.id), names.of_action(action));
        match self.run.transition(graph.id, action, &[graph.locations[post]]) {
            Ok(Some(event)) => {
                let link = &self.shaping.links[u32::from(event.channel) as usize];
                let channel = names.of_channel(event.channel);
                match event.event_type {
                    EventType::Send(values) => {
                        let message = message(&channel, link.fields, &values);
                        let said = format!("sends {message} to {}", link.to);
                        self.tell(graph.id, &said, Mark::Sent { from: who, to: link.to.into(), channel, message })
                    }
                    EventType::Receive(values) => {
                        let message = message(&channel, link.fields, &values);
                        let said = format!("takes {message} from {}", link.from);
                        self.tell(graph.id, &said, Mark::Taken { by: who, channel })
                    }
                    EventType::ProbeEmptyQueue | EventType::ProbeFullQueue => Ok(()),
                }
            }
            Ok(None) => self.tell(graph.id, &name, Mark::Did { who, what: name.clone() }),
            Err(refusal) => {
                let asks = if name == "take font" { " (only if asked)" } else { "" };
                let why = refused(&refusal);
                let channel = self.shaping.system.communication(action).map(|(channel, _)| names.of_channel(channel));
                let mark = Mark::MayNot { who, channel, what: format!("{why}: {name}{}", asks.replace(['(', ')'], "")) };
                self.tell(graph.id, &format!("may not {name}: {why}{asks}"), mark)
            }
        }
    }

    fn pass(&mut self, delta: u32) -> Result<(), CsError> {
        let Err(refusal) = self.run.wait(delta) else { return Ok(()) };
        let why = refused(&refusal);
        let said = match refusal {
            CsError::ProgramGraph(pg_id, _) => {
                let who = self.shaping.names.of_graph(pg_id);
                let asks = if pg_id == self.shaping.tab.id { " (since begun at most 100)" } else { "" };
                format!("{delta} may not pass for {who}: {why}{asks}")
            }
            _ => format!("{delta} may not pass: {why}"),
        };
        self.say("", &said);
        let drawn = said.split(" (").next().unwrap_or_default().to_string();
        self.drawn(Mark::TimeMayNot { what: drawn })
    }

    /// Where a graph is, and what it holds; the picture shows the variables in `shown`.
    fn look(&mut self, graph: &Graph, shown: &[&str]) -> Result<(), CsError> {
        let names = &self.shaping.names;
        let run = self.run.program_graph(graph.id)?;
        let of_graph = |refusal| CsError::ProgramGraph(graph.id, refusal);
        let mut held = vec![];
        for var in &graph.vars {
            held.push((names.of_var(*var), run.value(var.in_graph()).map_err(of_graph)?));
        }
        let time = run.clock(graph.clock.in_graph()).map_err(of_graph)?;
        let place = run.current_states()[0];
        let place = graph.locations.iter().find(|location| location.in_graph() == place);
        let place = place.map_or_else(String::new, |location| names.of_location(*location));
        let clock = names.of_clock(graph.clock);
        let all: Vec<String> = held.iter().map(|(name, val)| format!("{name} {val}")).collect();
        let few = held.iter().filter(|(name, _)| shown.contains(&name.as_str()));
        let few: Vec<String> = few.map(|(name, val)| format!("{name} {val}")).collect();
        let mark = Mark::Is { who: names.of_graph(graph.id), what: format!("{place}: {}, {clock} {time}", few.join(", ")) };
        self.tell(graph.id, &format!("is {place}: {}; {clock} {time}", all.join(", ")), mark)
    }

    fn look_into(&mut self, link: usize) -> Result<(), CsError> {
        let link = &self.shaping.links[link];
        let values: Vec<String> = self.run.queue(link.id)?.iter().map(Val::to_string).collect();
        let channel = self.shaping.names.of_channel(link.id);
        let held = if values.is_empty() { "nothing".to_string() } else { values.join(", ") };
        self.say(&channel, &format!("holds {held}"));
        self.drawn(Mark::Holds { of: link.to.into(), what: format!("the queue of {channel} still holds {held}") })
    }

    fn list(&mut self, graph: &Graph) -> Result<(), CsError> {
        let names = &self.shaping.names;
        let mut listed = vec![];
        for (action, posts) in self.run.possible_transitions_pg(graph.id)? {
            for post in posts.flatten() {
                listed.push(format!("may {}, to {}", names.of_action(action), names.of_location(post)));
            }
        }
        for said in listed {
            self.say(&names.of_graph(graph.id), &said);
        }
        Ok(())
    }
}

/// `font(number 7, kilobytes 11)`
fn message(channel: &str, fields: &[&str], values: &[Val]) -> String {
    let parts: Vec<String> = fields.iter().zip(values).map(|(field, val)| format!("{field} {val}")).collect();
    format!("{channel}({})", parts.join(", "))
}

/// `refused 8, UnsatisfiedGuard`
fn refused(refusal: &CsError) -> String {
    format!("refused {}, {}", refusal.number(), refusal.name())
}

/// Until the shaper has its font and lays out the page, the three conversations are the same.
fn begin<'a>(shaping: &'a Shaping, title: &str) -> Result<Watcher<'a>, CsError> {
    let Shaping { tab, shaper, loader, .. } = shaping;
    let mut w = Watcher::new(shaping, title);
    w.step(tab, 0, 1)?;
    w.step(tab, 1, 2)?;
    w.pass(2)?;
    w.step(shaper, 0, 1)?;
    w.step(shaper, 1, 2)?;
    w.step(shaper, 2, 3)?;
    w.pass(1)?;
    w.step(loader, 0, 1)?;
    w.step(loader, 1, 2)?;
    w.pass(12)?;
    w.step(loader, 2, 0)?;
    w.pass(1)?;
    w.step(shaper, 3, 4)?;
    w.step(shaper, 4, 5)?;
    Ok(w)
}

/// The shaper sends its glyphs, and the tab takes them.
fn end(w: &mut Watcher) -> Result<(), CsError> {
    w.step(&w.shaping.shaper, 5, 0)?;
    w.pass(1)?;
    w.step(&w.shaping.tab, 2, 0)?;
    w.look(&w.shaping.tab, &["glyphs"])
}

fn shapes_well(shaping: &Shaping) -> Result<Watcher<'_>, CsError> {
    let mut w = begin(shaping, "A page that shapes well")?;
    w.pass(20)?;
    end(&mut w)?;
    Ok(w)
}

fn hangs(shaping: &Shaping) -> Result<Watcher<'_>, CsError> {
    let mut w = begin(shaping, "A shaper that hangs")?;
    w.pass(500)?;
    w.pass(84)?;
    w.list(&shaping.tab)?;
    w.step_by(&shaping.tab, Action::epsilon(shaping.tab.id), 3)?;
    w.step(&shaping.tab, 3, 0)?;
    w.look(&shaping.shaper, &["page"])?;
    Ok(w)
}

fn unasked_font(shaping: &Shaping) -> Result<Watcher<'_>, CsError> {
    let mut w = begin(shaping, "The font that killed the tab")?;
    w.pass(4)?;
    w.step(&shaping.loader, 3, 0)?;
    w.pass(2)?;
    w.step(&shaping.shaper, 3, 4)?;
    w.look(&shaping.shaper, &["asked"])?;
    w.look_into(2)?;
    w.pass(14)?;
    end(&mut w)?;
    Ok(w)
}

fn main() -> Result<(), CsError> {
    let shaping = Shaping::new()?;
    let watched = [shapes_well(&shaping)?, hangs(&shaping)?, unasked_font(&shaping)?];
    if std::env::args().any(|argument| argument == "--svg") {
        let scenes: Vec<Scene> = watched.into_iter().map(|watcher| watcher.scene).collect();
        print!("{}", picture::draw(&["tab", "shaper", "loader"], &scenes));
    } else {
        let told: Vec<String> = watched.iter().map(|watcher| watcher.lines.join("\n") + "\n").collect();
        print!("{}", told.join("\n"));
    }
    Ok(())
}
