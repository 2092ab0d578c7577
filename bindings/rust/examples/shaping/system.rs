//! The three graphs: a tab, a shaper and a font loader.

use njunnemar::channel_system::{
    Action, Channel, ChannelCapacity, ChannelSystem, ChannelSystemBuilder, Clock, CsError, CsExpression, Location, PgId, Var,
};
use njunnemar::{BooleanExpr, IntegerExpr, Names, TimeRange, Type, Val};

/// A graph, by its parts.
pub struct Graph {
    pub id: PgId,
    pub locations: Vec<Location>,
    pub actions: Vec<Action>,
    pub vars: Vec<Var>,
    pub clock: Clock,
}

/// A channel: who sends on it, who receives, and what its values are.
pub struct Link {
    pub id: Channel,
    pub from: &'static str,
    pub to: &'static str,
    pub fields: &'static [&'static str],
}

/// A location that has to be left before its clock reads more than `most`.
pub struct Deadline {
    pub at: Location,
    pub clock: Clock,
    pub most: u32,
}

pub struct Shaping {
    pub system: ChannelSystem,
    pub names: Names,
    pub tab: Graph,
    pub shaper: Graph,
    pub loader: Graph,
    pub links: Vec<Link>,
    pub deadlines: Vec<Deadline>,
}

/// A builder that keeps the names of what it adds.
struct Named {
    builder: ChannelSystemBuilder,
    names: Names,
    links: Vec<Link>,
    deadlines: Vec<Deadline>,
}

impl Named {
    fn graph(&mut self, name: &str, clock: &str) -> Result<Graph, CsError> {
        let id = self.builder.new_program_graph()?;
        self.names.graph(id, name);
        let clock = self.names.clock(self.builder.new_clock(id)?, clock);
        Ok(Graph { id, locations: vec![], actions: vec![], vars: vec![], clock })
    }

    fn link(
        &mut self,
        name: &str,
        (from, to): (&'static str, &'static str),
        fields: &'static [&'static str],
        capacity: impl Into<ChannelCapacity>,
    ) -> Result<Channel, CsError> {
        let id = self.builder.new_channel(vec![Type::Integer; fields.len()], capacity)?;
        self.names.channel(id, name);
        self.links.push(Link { id, from, to, fields });
        Ok(id)
    }

    fn var(&mut self, graph: &mut Graph, name: &str, val: Val) -> Result<Var, CsError> {
        let var = self.builder.new_var(graph.id, val)?;
        graph.vars.push(self.names.var(var, name));
        Ok(var)
    }

    fn start(&mut self, graph: &mut Graph, name: &str) -> Result<Location, CsError> {
        let location = self.builder.new_initial_location(graph.id)?;
        graph.locations.push(self.names.location(location, name));
        Ok(location)
    }

    fn location(&mut self, graph: &mut Graph, name: &str) -> Result<Location, CsError> {
        let location = self.builder.new_location(graph.id)?;
        graph.locations.push(self.names.location(location, name));
        Ok(location)
    }

    fn until(&mut self, graph: &mut Graph, name: &str, most: u32) -> Result<Location, CsError> {
        let invariant = vec![(graph.clock, TimeRange::new(..=most))];
        let at = self.builder.new_timed_location(graph.id, invariant)?;
        graph.locations.push(self.names.location(at, name));
        self.deadlines.push(Deadline { at, clock: graph.clock, most });
        Ok(at)
    }

    fn action(&mut self, graph: &mut Graph, name: &str, action: Action) -> Action {
        graph.actions.push(self.names.action(action, name));
        action
    }
}

fn number(n: i32) -> CsExpression {
    CsExpression::from(n)
}

fn held(var: Var) -> CsExpression {
    IntegerExpr::from(var).into()
}

impl Shaping {
    pub fn new() -> Result<Self, CsError> {
        let mut n = Named { builder: ChannelSystemBuilder::new(), names: Names::new(), links: vec![], deadlines: vec![] };
        let request = n.link("request", ("tab", "shaper"), &["page", "characters"], Some(4))?;
        let need = n.link("need", ("shaper", "loader"), &["font"], Some(2))?;
        let font = n.link("font", ("loader", "shaper"), &["number", "kilobytes"], Some(8))?;
        let glyphs = n.link("glyphs", ("shaper", "tab"), &["page", "count"], Some(4))?;
        let report = n.link("report", ("tab", "log"), &["page"], ChannelCapacity::Sink)?;
        let tab = tab(&mut n, request, glyphs, report)?;
        let shaper = shaper(&mut n, request, need, font, glyphs)?;
        let loader = loader(&mut n, need, font)?;
        Ok(Shaping { system: n.builder.build()?, names: n.names, tab, shaper, loader, links: n.links, deadlines: n.deadlines })
    }
}

/// Begins a page, asks for it, and waits for at most 100; then it gives up and reports.
fn tab(n: &mut Named, request: Channel, glyphs: Channel, report: Channel) -> Result<Graph, CsError> {
    let mut tab = n.graph("tab", "since begun")?;
    let (g, clock) = (tab.id, tab.clock);
    let page = n.var(&mut tab, "page", Val::from(0))?;
    let shaped = n.var(&mut tab, "shaped", Val::from(0))?;
    let count = n.var(&mut tab, "glyphs", Val::from(0))?;
    let idle = n.start(&mut tab, "idle")?;
    let ready = n.until(&mut tab, "ready", 5)?;
    let waiting = n.until(&mut tab, "waiting", 100)?;
    let late = n.location(&mut tab, "late")?;

    let begin = n.builder.new_action(g)?;
    n.builder.add_reset(g, begin, clock)?;
    n.builder.add_effect(g, begin, page, (IntegerExpr::from(page) + 1.into()).into())?;
    let ask = n.builder.new_send(g, request, vec![held(page), number(120)])?;
    let take = n.builder.new_receive(g, glyphs, vec![shaped, count])?;
    let tell = n.builder.new_send(g, report, vec![held(page)])?;
    for (action, name) in [(begin, "begin"), (ask, "send request"), (take, "take glyphs"), (tell, "send report")] {
        n.action(&mut tab, name, action);
    }
    n.names.action(Action::epsilon(g), "give up");

    n.builder.add_transition(g, idle, begin, ready, None)?;
    n.builder.add_transition(g, ready, ask, waiting, None)?;
    n.builder.add_transition(g, waiting, take, idle, None)?;
    n.builder.add_autonomous_timed_transition(g, waiting, late, None, vec![(clock, TimeRange::new(100..))])?;
    n.builder.add_transition(g, late, tell, idle, None)?;
    Ok(tab)
}

/// Takes a request, asks for a font, takes it only if it asked, and shapes.
fn shaper(n: &mut Named, request: Channel, need: Channel, font: Channel, glyphs: Channel) -> Result<Graph, CsError> {
    let mut shaper = n.graph("shaper", "since asked")?;
    let (g, clock) = (shaper.id, shaper.clock);
    let page = n.var(&mut shaper, "page", Val::from(0))?;
    let characters = n.var(&mut shaper, "characters", Val::from(0))?;
    let asked = n.var(&mut shaper, "asked", Val::from(false))?;
    let number_of = n.var(&mut shaper, "font", Val::from(0))?;
    let kilobytes = n.var(&mut shaper, "kilobytes", Val::from(0))?;
    let count = n.var(&mut shaper, "glyphs", Val::from(0))?;
    let idle = n.start(&mut shaper, "idle")?;
    let reading = n.location(&mut shaper, "reading")?;
    let asking = n.location(&mut shaper, "asking")?;
    let waiting = n.until(&mut shaper, "waiting", 50)?;
    let loaded = n.location(&mut shaper, "loaded")?;
    let shaping = n.location(&mut shaper, "shaping")?;

    let take = n.builder.new_receive(g, request, vec![page, characters])?;
    let want = n.builder.new_action(g)?;
    n.builder.add_reset(g, want, clock)?;
    n.builder.add_effect(g, want, asked, true.into())?;
    let ask = n.builder.new_send(g, need, vec![number(7)])?;
    let load = n.builder.new_receive(g, font, vec![number_of, kilobytes])?;
    let lay_out = n.builder.new_action(g)?;
    n.builder.add_effect(g, lay_out, asked, false.into())?;
    n.builder.add_effect(g, lay_out, count, (IntegerExpr::from(characters) - 2.into()).into())?;
    let give = n.builder.new_send(g, glyphs, vec![held(page), held(count)])?;
    let names = ["take request", "want a font", "send need", "take font", "lay out", "send glyphs"];
    for (action, name) in [take, want, ask, load, lay_out, give].into_iter().zip(names) {
        n.action(&mut shaper, name, action);
    }

    let if_asked = || Some(BooleanExpr::from(asked));
    n.builder.add_transition(g, idle, take, reading, None)?;
    n.builder.add_transition(g, reading, want, asking, None)?;
    n.builder.add_transition(g, asking, ask, waiting, None)?;
    n.builder.add_transition(g, waiting, load, loaded, if_asked())?;
    n.builder.add_transition(g, loaded, lay_out, shaping, None)?;
    n.builder.add_transition(g, shaping, load, loaded, if_asked())?;
    n.builder.add_transition(g, shaping, give, idle, None)?;
    Ok(shaper)
}

/// Opens a font, which takes it from 5 to 30; and it may push one that nobody asked for.
fn loader(n: &mut Named, need: Channel, font: Channel) -> Result<Graph, CsError> {
    let mut loader = n.graph("loader", "since opened")?;
    let (g, clock) = (loader.id, loader.clock);
    let number_of = n.var(&mut loader, "font", Val::from(0))?;
    let kilobytes = n.var(&mut loader, "kilobytes", Val::from(0))?;
    let idle = n.start(&mut loader, "idle")?;
    let asked = n.location(&mut loader, "asked")?;
    let loading = n.until(&mut loader, "loading", 30)?;

    let take = n.builder.new_receive(g, need, vec![number_of])?;
    let open = n.builder.new_action(g)?;
    n.builder.add_reset(g, open, clock)?;
    n.builder.add_effect(g, open, kilobytes, number(240))?;
    let give = n.builder.new_send(g, font, vec![held(number_of), held(kilobytes)])?;
    let push = n.builder.new_send(g, font, vec![number(7), number(11)])?;
    for (action, name) in [(take, "take need"), (open, "open"), (give, "send font"), (push, "push font")] {
        n.action(&mut loader, name, action);
    }

    n.builder.add_transition(g, idle, take, asked, None)?;
    n.builder.add_transition(g, asked, open, loading, None)?;
    n.builder.add_timed_transition(g, loading, give, idle, None, vec![(clock, TimeRange::new(5..))])?;
    n.builder.add_transition(g, idle, push, idle, None)?;
    Ok(loader)
}
