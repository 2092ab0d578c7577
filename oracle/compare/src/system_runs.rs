//! Calls on a state: steps and waits, most of them guided by the listing and by `can`, bursts that fill and empty queues, near
//! misses, steps with parts of other graphs, and questions.

use crate::graph::{EPSILON, action_text};
use crate::recordings;
use crate::runs::entry;
use crate::system_building::SystemMaker;
use crate::system_model::{Capacity, Message, State};

/// An action of a graph and a post for each of its processes.
struct Way {
    graph: usize,
    action: u32,
    posts: Vec<u32>,
}

impl SystemMaker<'_> {
    pub fn full(&self) -> bool {
        self.maker.full()
    }

    pub fn start(&mut self) -> bool {
        if !self.places.is_empty() && self.maker.chance.percent(40) {
            self.maker.say("t show");
        }
        let ok = self.maker.say("t new") == "ok";
        self.made.clear();
        if ok {
            self.places = self
                .system
                .graphs
                .iter()
                .map(|g| g.processes.clone())
                .collect();
            self.rings = vec![(0, 0); self.system.channels.len()];
        } else {
            self.places.clear();
        }
        ok
    }

    pub fn run_calls(&mut self, upto: usize) {
        while self.maker.lines.len() < upto && !self.full() {
            if self.places.is_empty() && !self.start() {
                self.random_step();
                if !self.system.graphs.is_empty() {
                    return;
                }
            }
            self.run_call();
        }
    }

    pub fn run_call(&mut self) {
        match self.maker.chance.below(100) {
            0..=37 => self.guided_step(),
            38..=49 => self.near_step(),
            50..=54 => self.random_step(),
            55..=58 => self.burst(),
            59..=61 => self.drain(),
            62..=74 => self.guided_wait(),
            75..=76 => self.random_wait(),
            77..=79 => self.refused_between_sums(),
            80..=96 => self.question(),
            97 if self.made.len() > 3 => self.recordings(),
            97 => self.question(),
            98 => {
                let line = *self.maker.chance.pick(&crate::malformed::ABOVE);
                self.maker.say(line);
            }
            _ => {
                self.start();
            }
        }
    }

    fn any_graph(&mut self) -> usize {
        self.maker.chance.below(self.system.graphs.len())
    }

    /// What `t pg` says of a graph: action, process, post.
    fn listing(&mut self, g: usize) -> Vec<(u32, usize, u32)> {
        let mut entries = vec![];
        for k in 0..40 {
            let answer = self.maker.ask(&format!("t pg {g} {k}"));
            let Some(entry) = entry(&answer) else { break };
            entries.push(entry);
        }
        entries
    }

    /// A listed way of a graph, of a few the one that was taken least.
    fn listed_way(&mut self, graph: usize) -> Option<Way> {
        let entries = self.listing(graph);
        let processes = self.places.get(graph)?.len();
        let posts_of = |action: u32, process: usize| -> Vec<u32> {
            let of = entries
                .iter()
                .filter(|e| e.0 == action && e.1 == process)
                .map(|e| e.2);
            of.collect()
        };
        let mut actions: Vec<u32> = entries.iter().map(|e| e.0).collect();
        actions.dedup();
        actions.retain(|a| (0..processes).all(|p| !posts_of(*a, p).is_empty()));
        if actions.is_empty() {
            return None;
        }
        let mut best: Option<(usize, u32)> = None;
        for _ in 0..3 {
            let action = *self.maker.chance.pick(&actions);
            let times = self.chosen.get(&(graph, action)).copied().unwrap_or(0);
            if best.is_none_or(|(least, _)| times < least) {
                best = Some((times, action));
            }
        }
        let (times, action) = best?;
        self.chosen.insert((graph, action), times + 1);
        let posts = (0..processes)
            .map(|p| *self.maker.chance.pick(&posts_of(action, p)))
            .collect();
        Some(Way {
            graph,
            action,
            posts,
        })
    }

    pub fn guided_step(&mut self) {
        let graphs = self.system.graphs.len();
        let first = self.any_graph();
        for k in 0..graphs.min(4) {
            if let Some(way) = self.listed_way((first + k) % graphs) {
                self.take(&way);
                if self.maker.chance.percent(6) {
                    self.maker.say("t show");
                }
                return;
            }
        }
        if graphs > 0 && self.maker.chance.percent(50) {
            self.start();
        } else {
            self.guided_wait();
        }
    }

    /// Makes the step; the answer.
    fn take(&mut self, way: &Way) -> String {
        let g = way.graph as u32;
        let posts: Vec<(u32, u32)> = way.posts.iter().map(|post| (g, *post)).collect();
        let answer = self.step(g, (g, way.action), &posts);
        if answer == "refused 26" {
            *self.chosen.entry((way.graph, way.action)).or_default() += 20;
        }
        answer
    }

    /// A step with any numbers; what it changed is noted.
    fn step(&mut self, graph: u32, action: (u32, u32), posts: &[(u32, u32)]) -> String {
        let word = self.maker.draw_word();
        let mut asked = format!("{graph} {}:{} (", action.0, action_text(action.1));
        for (g, post) in posts {
            asked += &format!(" {g}:{post}");
        }
        let answer = self.maker.say_call(format!("t step {asked} ) {word}"));
        // Why it said 8, and now and then what is told of the next step.
        if answer == "refused 8" || self.maker.chance.percent(10) {
            self.maker.say_call(format!("t why {asked} ) {word}"));
        }
        self.note(recordings::step(graph, action, posts, word), &answer);
        if answer.starts_with("ok") && (graph as usize) < self.places.len() {
            self.places[graph as usize] = posts.iter().map(|post| post.1).collect();
            self.moved(&answer);
        }
        answer
    }

    /// The ring's counts after an event.
    fn moved(&mut self, answer: &str) {
        let tokens: Vec<&str> = answer.split(' ').collect();
        let [_, _, channel, kind, values @ ..] = tokens.as_slice() else {
            return;
        };
        let Ok(q) = channel.parse::<usize>() else {
            return;
        };
        let (Some(channel), Some((read, write))) =
            (self.system.channels.get(q), self.rings.get_mut(q))
        else {
            return;
        };
        let (count, sink) = (values.len() as u32, channel.capacity == Capacity::Sink);
        match *kind {
            "send" if !sink => *write = write.wrapping_add(count),
            "receive" => *read = read.wrapping_add(count),
            _ => {}
        }
    }

    /// A way along transitions that are there: the channel, guards and limits may object.
    fn near_way(&mut self, graph: usize, wanted: Option<u32>) -> Option<Way> {
        let places = self.places.get(graph)?.clone();
        let transitions = &self.system.graphs[graph].transitions;
        let mut actions: Vec<u32> = transitions
            .iter()
            .filter(|t| places.first() == Some(&t.pre))
            .map(|t| t.action)
            .filter(|action| wanted.is_none_or(|wanted| wanted == *action))
            .collect();
        actions.dedup();
        if actions.is_empty() {
            return None;
        }
        let action = *self.maker.chance.pick(&actions);
        let mut posts = vec![];
        for place in places {
            let known: Vec<u32> = self.system.graphs[graph]
                .transitions
                .iter()
                .filter(|t| t.pre == place && t.action == action)
                .map(|t| t.post)
                .collect();
            posts.push(match known.as_slice() {
                [] => place,
                known => *self.maker.chance.pick(known),
            });
        }
        Some(Way {
            graph,
            action,
            posts,
        })
    }

    pub fn near_step(&mut self) {
        let graph = self.any_graph();
        match self.near_way(graph, None) {
            Some(mut way) => {
                self.spoil_posts(&mut way.posts);
                self.take(&way);
            }
            None => self.random_step(),
        }
    }

    /// Now and then an unknown post, a wrong number of them, or both: the channel may object first, and 7 comes before 8.
    fn spoil_posts(&mut self, posts: &mut Vec<u32>) {
        let odd = self.maker.odd_number(3);
        let kind = self.maker.chance.below(100);
        match (kind, posts.first_mut()) {
            (0..=9 | 30..=33, Some(post)) => *post = odd,
            (10..=15, _) => posts.push(0),
            (16..=21, _) => posts.push(odd),
            (22..=27, _) => posts.clear(),
            _ => {}
        }
        if (30..=33).contains(&kind) {
            posts.push(0);
        }
    }

    /// Numbers of other graphs and of none.
    pub fn random_step(&mut self) {
        let graphs = self.system.graphs.len();
        let odd = |maker: &mut Self| {
            let numbers = [
                graphs as u32,
                graphs as u32 + 1,
                8,
                255,
                65535,
                65536,
                1 << 31,
                u32::MAX,
            ];
            *maker.maker.chance.pick(&numbers)
        };
        let real = self.any_graph();
        let Some(way) = self.near_way(real, None).filter(|_| graphs > 0) else {
            let (g, action) = (odd(self), self.maker.chance.below(4) as u32);
            self.step(g, (g, action), &[(g, 0)]);
            return;
        };
        let g = real as u32;
        let other = match self.maker.chance.percent(50) && graphs > 1 {
            true => ((real + 1 + self.maker.chance.below(graphs - 1)) % graphs) as u32,
            false => odd(self),
        };
        let mut posts: Vec<(u32, u32)> = way.posts.iter().map(|post| (g, *post)).collect();
        let (mut graph, mut action) = (g, (g, way.action));
        match self.maker.chance.below(10) {
            0 => graph = odd(self),
            1 => action.0 = other,
            2 => posts.iter_mut().for_each(|post| post.0 = other),
            3 => posts.push((other, 0)),
            4 => {
                // Everything belongs to another graph.
                (graph, action.0) = (other, other);
                posts.iter_mut().for_each(|post| post.0 = other);
            }
            5 => {
                // An unknown action: it may be another graph's number.
                let actions = self.system.graphs[real].actions.len();
                action.1 = match self.maker.chance.percent(70) {
                    true => (actions + self.maker.chance.below(6)) as u32,
                    false => self.maker.odd_number(actions),
                };
            }
            6 => action.1 = EPSILON,
            7 if !posts.is_empty() => {
                let at = self.maker.chance.below(posts.len());
                posts[at].1 = self.maker.odd_number(2);
            }
            8 => posts.extend_from_within(..),
            _ => {
                // All of it at once: the first refusal counts.
                action.0 = other;
                posts.push((odd(self), 7));
            }
        }
        posts.truncate(8);
        self.step(graph, action, &posts);
    }

    /// Sends on one channel until it is refused, and a little more.
    fn burst(&mut self) {
        match self.some_queue() {
            Some(q) => self.go_on(Message::Send, q),
            None => self.guided_step(),
        }
    }

    fn drain(&mut self) {
        match self.some_queue() {
            Some(q) => self.go_on(Message::Receive, q),
            None => self.guided_step(),
        }
    }

    /// The same communication again and again, then a probe.
    pub fn go_on(&mut self, kind: Message, q: usize) {
        self.repeat(kind, q);
        self.probe(q);
    }

    /// Queues whose room matters are taken more often.
    pub fn some_queue(&mut self) -> Option<usize> {
        let channels = &self.system.channels;
        let deep: Vec<usize> = (0..channels.len())
            .filter(|q| channels[*q].most() > 0)
            .collect();
        if channels.is_empty() {
            None
        } else if deep.is_empty() || self.maker.chance.percent(15) {
            Some(self.maker.chance.below(self.system.channels.len()))
        } else {
            Some(*self.maker.chance.pick(&deep))
        }
    }

    fn repeat(&mut self, kind: Message, q: usize) {
        let most = self.system.channels[q].most() + 1;
        let times = match self.maker.chance.percent(60) {
            true => most,
            false => self.maker.chance.from_to(1, most.min(6)),
        };
        let mut refused = 0;
        for _ in 0..times.min(66) {
            let Some(way) = self.way_by(kind, q) else {
                break;
            };
            let answer = self.take(&way);
            refused += !answer.starts_with("ok") as usize;
            if refused > 1 || self.full() {
                break;
            }
        }
    }

    /// A way by a communication on a channel: the listed posts where there are any, else along transitions.
    fn way_by(&mut self, kind: Message, q: usize) -> Option<Way> {
        let graphs = self.system.graphs.len();
        let first = self.any_graph();
        for k in 0..graphs {
            let graph = (first + k) % graphs;
            for action in self.system.actions(graph, (kind, q)) {
                if let Some(way) = self.near_way(graph, Some(action)) {
                    return Some(way);
                }
            }
        }
        None
    }

    fn probe(&mut self, q: usize) {
        let kind = *self
            .maker
            .chance
            .pick(&[Message::Empty, Message::Full, Message::Full]);
        if let Some(way) = self.way_by(kind, q) {
            self.take(&way);
        }
    }

    /// A small wait that `can` allows, or one up to the first deadline and then one too far.
    pub fn guided_wait(&mut self) {
        if self.maker.chance.percent(25) {
            return self.wait_to_edge();
        }
        for _ in 0..3 {
            let delta = *self.maker.chance.pick(&[1, 1, 1, 2, 2, 3, 5]);
            if self.maker.ask(&format!("t can {delta}")) == "yes" {
                self.wait(delta);
                return;
            }
        }
        self.reset_some_clocks();
    }

    fn wait(&mut self, delta: u32) -> String {
        let answer = self.maker.say_call(format!("t wait {delta}"));
        self.note(Some(recordings::wait(delta)), &answer);
        answer
    }

    fn wait_to_edge(&mut self) {
        let Some(most) = (0..16)
            .rev()
            .find(|delta| self.maker.ask(&format!("t can {delta}")) == "yes")
        else {
            self.wait(0);
            return;
        };
        if self.maker.chance.percent(40) {
            self.maker.say(format!("t can {most}"));
            self.maker.say(format!("t can {}", most + 1));
        }
        self.wait(most);
        let answer = self.wait(1);
        // The graph that objects moves, so that another one objects next.
        if let Some(g) = answer
            .strip_prefix("refused 9 ")
            .and_then(|g| g.parse::<usize>().ok())
            && self.maker.chance.percent(70)
            && let Some(way) = self.near_way(g, Some(0))
        {
            self.take(&way);
            self.wait(1);
        }
    }

    fn reset_some_clocks(&mut self) {
        for g in 0..self.system.graphs.len() {
            if self.maker.chance.percent(60)
                && let Some(way) = self.near_way(g, Some(0))
            {
                self.take(&way);
            }
        }
    }

    fn random_wait(&mut self) {
        let delta = self.maker.odd_time();
        if self.maker.chance.percent(40) {
            self.maker.say_call(format!("t can {delta}"));
        }
        self.wait(delta);
        if delta > 1000 && self.maker.chance.percent(50) {
            self.question();
            self.start();
        }
    }

    /// Refused lines between two sums, which have to be equal.
    fn refused_between_sums(&mut self) {
        self.maker.say("sum t");
        for _ in 0..self.maker.chance.from_to(1, 3) {
            match self.maker.chance.below(3) {
                0 => self.near_step(),
                1 => self.random_step(),
                _ => {
                    self.wait(u32::MAX);
                }
            }
        }
        self.maker.say("sum t");
    }

    pub fn question(&mut self) {
        let k = self.maker.list_number();
        let odd = self.maker.odd_number(self.system.graphs.len());
        let odd = odd.max(self.system.graphs.len() as u32);
        let wrong = self.maker.chance.percent(10);
        let g = match wrong {
            true => odd,
            false => self.any_graph() as u32,
        };
        let q = match wrong || self.system.channels.is_empty() {
            true => odd.max(self.system.channels.len() as u32),
            false => self.maker.chance.below(self.system.channels.len()) as u32,
        };
        let line = match self.maker.chance.below(20) {
            0..=2 => format!("t can {}", self.maker.odd_time()),
            3..=5 => "t waiting".to_string(),
            6..=8 => format!("t list {k}"),
            9..=10 => format!("t pg {g} {k}"),
            11..=12 => format!("t solo {g} {k}"),
            13 => "t time".to_string(),
            14 => format!("t run {g}"),
            15..=16 => return self.queue_question(q),
            17 => format!("s capacity {q}"),
            18 if self.maker.chance.percent(30) => return self.whole_listing(),
            _ => "t show".to_string(),
        };
        self.maker.say_call(line);
    }

    /// An entry that is there, or the first past the end, or any.
    fn queue_question(&mut self, q: u32) {
        let filled = (0..self.rings.len()).find(|q| self.rings[*q].0 != self.rings[*q].1);
        let q = match filled {
            Some(filled) if (q as usize) < self.rings.len() && self.maker.chance.percent(70) => {
                filled as u32
            }
            _ => q,
        };
        let stored = self
            .rings
            .get(q as usize)
            .map_or(0, |(read, write)| write.wrapping_sub(*read));
        let k = match self.maker.chance.below(4) {
            0 => self.maker.list_number(),
            1 => stored,
            _ => self.maker.chance.below(stored as usize) as u32,
        };
        self.maker.say_call(format!("t queue {q} {k}"));
    }

    fn whole_listing(&mut self) {
        for k in 0..40 {
            let answer = self.maker.say(format!("t list {k}"));
            if !answer.starts_with("ok") {
                break;
            }
        }
    }

    /// The state, asked aside.
    pub fn state(&mut self) -> Option<State> {
        let shown = self.maker.ask("t show");
        State::read(&shown, &self.rings)
    }
}
