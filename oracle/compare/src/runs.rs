//! Calls on a run: steps, sends, receives, waits and questions. A part of the steps and waits is guided by the oracle's listing
//! and `can`, so that they are accepted; the others are near misses and random ones.

use crate::graph::{Act, EPSILON, Kind, action_text, posts_text};
use crate::maker::Maker;

impl Maker<'_> {
    /// Goes on with run calls until the script has `upto` lines.
    pub fn run_calls(&mut self, upto: usize) {
        while self.lines.len() < upto && !self.full() {
            if self.places.is_empty() && !self.start_run() {
                // No run can be had of this graph: one refused call is enough.
                self.random_step();
                return;
            }
            self.run_call();
        }
    }

    pub fn run_call(&mut self) {
        match self.chance.below(100) {
            0..=35 => self.guided_step(),
            36..=55 => self.near_step(),
            56..=60 => self.random_step(),
            61..=81 => self.guided_wait(),
            82..=85 => self.random_wait(),
            86..=98 => self.question(),
            _ => {
                self.start_run();
            }
        }
    }

    /// What `r list` says: action, process, post.
    fn listing(&mut self) -> Vec<(u32, usize, u32)> {
        let mut entries = vec![];
        for k in 0..64 {
            let answer = self.ask(&format!("r list {k}"));
            let Some(entry) = entry(&answer) else { break };
            entries.push(entry);
        }
        entries
    }

    /// An action and a post for each process, all of them listed.
    fn listed_step(&mut self) -> Option<(u32, Vec<u32>)> {
        let entries = self.listing();
        let processes = self.places.len();
        let posts_of = |action: u32, process: usize| -> Vec<u32> {
            entries
                .iter()
                .filter(|e| e.0 == action && e.1 == process)
                .map(|e| e.2)
                .collect()
        };
        let mut actions: Vec<u32> = entries.iter().map(|e| e.0).collect();
        actions.dedup();
        actions.retain(|a| (0..processes).all(|p| !posts_of(*a, p).is_empty()));
        if actions.is_empty() {
            return None;
        }
        // Of a few, the one that was least chosen: else a way that is always open would take most steps.
        let mut best: Option<(usize, (u32, Vec<u32>))> = None;
        for _ in 0..3 {
            let action = *self.chance.pick(&actions);
            let posts = (0..processes)
                .map(|p| *self.chance.pick(&posts_of(action, p)))
                .collect();
            let step = (action, posts);
            let times = self.chosen.get(&step).copied().unwrap_or(0);
            if best.as_ref().is_none_or(|(least, _)| times < *least) {
                best = Some((times, step));
            }
        }
        let (times, step) = best?;
        self.chosen.insert(step.clone(), times + 1);
        Some(step)
    }

    pub fn guided_step(&mut self) {
        if let Some((action, posts)) = self.listed_step() {
            self.proper_call(action, &posts);
            if self.chance.percent(8) {
                self.say("r show");
            }
        } else if self.chance.percent(60) && self.can_wait_on() {
            self.guided_wait();
        } else {
            self.start_run();
        }
    }

    /// Some waiting makes a transition possible.
    fn can_wait_on(&mut self) -> bool {
        self.ask("r waiting") == "yes"
    }

    /// A step by the call that belongs to the action's kind.
    fn proper_call(&mut self, action: u32, posts: &[u32]) {
        if self.chance.percent(2) {
            return self.any_call(action, posts);
        }
        match self.graph.actions.get(action as usize) {
            Some(Act::Send(_)) if action != EPSILON => self.send(action, posts),
            Some(Act::Receive(vars)) if action != EPSILON => {
                let vars = vars.clone();
                let values = self.received(&vars);
                self.receive(action, posts, &values);
            }
            _ => self.step(action, posts),
        }
    }

    /// Values for a receive, now and then not as the action wants them.
    fn received(&mut self, vars: &[u32]) -> Vec<String> {
        let mut values = vec![];
        for var in vars {
            let kind = self
                .graph
                .vars
                .get(*var as usize)
                .map_or(Kind::Int, |val| val.kind());
            values.push(self.value(kind).text());
        }
        match self.chance.below(40) {
            0 => values.push(self.any_value().text()),
            1 => {
                values.pop();
            }
            2 => {
                for value in &mut values {
                    *value = self.any_value().text();
                }
            }
            3 => {
                values = (0..self.chance.from_to(4, 6))
                    .map(|_| self.any_value().text())
                    .collect()
            }
            _ => {}
        }
        values.truncate(6);
        values
    }

    fn any_call(&mut self, action: u32, posts: &[u32]) {
        match self.chance.below(3) {
            0 => self.step(action, posts),
            1 => self.send(action, posts),
            _ => {
                let count = self.chance.from_to(0, 6);
                let values: Vec<String> = (0..count).map(|_| self.any_value().text()).collect();
                self.receive(action, posts, &values);
            }
        }
    }

    pub fn draw_word(&mut self) -> u64 {
        match self.chance.below(8) {
            0 => 0,
            1 => u64::MAX,
            2 => 1,
            3 => self.chance.below(1024) as u64,
            _ => self.chance.word(),
        }
    }

    fn step(&mut self, action: u32, posts: &[u32]) {
        let word = self.draw_word();
        let answer = self.say_call(format!(
            "r step {} {} {word}",
            action_text(action),
            posts_text(posts)
        ));
        self.moved(&answer, action, posts);
    }

    fn send(&mut self, action: u32, posts: &[u32]) {
        let word = self.draw_word();
        let answer = self.say_call(format!(
            "r send {} {} {word}",
            action_text(action),
            posts_text(posts)
        ));
        self.moved(&answer, action, posts);
    }

    fn receive(&mut self, action: u32, posts: &[u32], values: &[String]) {
        let mut line = format!("r receive {} {}", action_text(action), posts_text(posts));
        for value in values {
            line = line + " " + value;
        }
        let answer = self.say_call(line);
        self.moved(&answer, action, posts);
    }

    fn moved(&mut self, answer: &str, action: u32, posts: &[u32]) {
        if answer.starts_with("ok") {
            self.places = posts.to_vec();
        } else if answer == "refused 26" {
            // It is listed all the same, and would be again: rather another one.
            *self.chosen.entry((action, posts.to_vec())).or_default() += 20;
        }
    }

    /// A step along transitions that are there: guards, limits and invariants may object.
    pub fn near_step(&mut self) {
        let pick = self.chance.below(self.places.len().max(1));
        let place = self.places.get(pick).copied().unwrap_or(0);
        let mut actions: Vec<u32> = self
            .graph
            .transitions
            .iter()
            .filter(|t| t.pre == place)
            .map(|t| t.action)
            .collect();
        actions.dedup();
        if actions.is_empty() {
            return self.random_step();
        }
        let action = *self.chance.pick(&actions);
        let mut posts = vec![];
        for place in self.places.clone() {
            let known: Vec<u32> = self
                .graph
                .transitions
                .iter()
                .filter(|t| t.pre == place && t.action == action)
                .map(|t| t.post)
                .collect();
            if known.is_empty() {
                posts.push(self.chance.below(self.graph.locations.len()) as u32);
            } else {
                posts.push(*self.chance.pick(&known));
            }
        }
        self.proper_call(action, &posts);
    }

    /// Any numbers: too many posts, unknown ones, another kind of call.
    pub fn random_step(&mut self) {
        let (actions, locations) = (self.graph.actions.len(), self.graph.locations.len());
        let action = match self.chance.below(6) {
            0 => EPSILON,
            1 => self.odd_number(actions),
            _ => self.chance.below(actions) as u32,
        };
        let count = match self.chance.below(4) {
            0 => self.chance.from_to(0, 8),
            _ => self.places.len(),
        };
        let posts: Vec<u32> = (0..count)
            .map(|_| {
                if self.chance.percent(25) {
                    self.odd_number(locations)
                } else {
                    self.chance.below(locations) as u32
                }
            })
            .collect();
        self.any_call(action, &posts);
    }

    /// A number that names nothing, mostly.
    pub fn odd_number(&mut self, count: usize) -> u32 {
        *self.chance.pick(&[
            count as u32,
            count as u32 + 1,
            31,
            32,
            33,
            127,
            128,
            255,
            256,
            65535,
            65536,
            65537,
            u32::MAX - 1,
            u32::MAX,
        ])
    }

    /// A wait that `can` allows: a small one, or one up to the edge of an invariant and then one too far.
    pub fn guided_wait(&mut self) {
        if self.chance.percent(12) {
            return self.wait_to_edge();
        }
        for _ in 0..4 {
            let delta = *self.chance.pick(&[1, 1, 1, 2, 2, 3, 4, 5, 7]);
            if self.ask(&format!("r can {delta}")) == "yes" {
                if self.chance.percent(5) {
                    self.say(format!("r can {delta}"));
                }
                self.say_call(format!("r wait {delta}"));
                return;
            }
        }
        if self.chance.percent(30) {
            self.say("r wait 0");
        } else if let Some((action, posts)) = self.listed_step() {
            self.proper_call(action, &posts);
        } else {
            self.start_run();
        }
    }

    fn wait_to_edge(&mut self) {
        let Some(most) = (0..16)
            .rev()
            .find(|delta| self.ask(&format!("r can {delta}")) == "yes")
        else {
            self.say("r wait 0");
            return;
        };
        if self.chance.percent(40) {
            self.say(format!("r can {most}"));
            self.say(format!("r can {}", most + 1));
        }
        self.say(format!("r wait {most}"));
        let more = self.chance.from_to(1, 2);
        self.say(format!("r wait {more}"));
    }

    fn random_wait(&mut self) {
        let delta = self.odd_time();
        if self.chance.percent(40) {
            self.say_call(format!("r can {delta}"));
        }
        self.say_call(format!("r wait {delta}"));
        if delta > 1000 && self.chance.percent(50) {
            // Clocks may now stand at the edge; go on afresh soon.
            self.question();
            self.random_step();
            self.start_run();
        }
    }

    pub fn odd_time(&mut self) -> u32 {
        match self.chance.below(12) {
            0 => u32::MAX,
            1 => u32::MAX - self.chance.below(4) as u32,
            2 => 1 << 31,
            3 => self.chance.word() as u32,
            _ => self.chance.below(12) as u32,
        }
    }

    pub fn question(&mut self) {
        match self.chance.below(22) {
            0..=2 => {
                let delta = self.odd_time();
                self.say_call(format!("r can {delta}"))
            }
            3..=6 => self.say("r waiting"),
            7..=10 => {
                let k = self.list_number();
                self.say_call(format!("r list {k}"))
            }
            11..=12 => {
                let k = self.list_number();
                self.say_call(format!("r solo {k}"))
            }
            13 => {
                let line = self.range_line();
                self.say_call(line)
            }
            14 if self.chance.percent(30) => self.whole_listing(),
            15..=17 => {
                let line = self.reader_line();
                self.say_call(line)
            }
            18..=20 => {
                let line = self.expression_line();
                self.say_call(line)
            }
            _ => self.say("r show"),
        };
    }

    /// Every entry and the end.
    fn whole_listing(&mut self) -> String {
        let word = if self.places.len() == 1 && self.chance.percent(50) {
            "solo"
        } else {
            "list"
        };
        for k in 0..30 {
            let answer = self.say(format!("r {word} {k}"));
            if !answer.starts_with("ok") {
                break;
            }
        }
        String::new()
    }

    pub fn list_number(&mut self) -> u32 {
        match self.chance.below(10) {
            0 => u32::MAX,
            1 => self.chance.from_to(10, 130) as u32,
            _ => self.chance.below(6) as u32,
        }
    }

    /// A line about a time range, at its edges.
    pub fn range_line(&mut self) -> String {
        let (low, high) = (self.any_bound(), self.any_bound());
        let near = |bound: crate::graph::Bound| match bound {
            crate::graph::Bound::Absent => 0,
            crate::graph::Bound::Included(n) | crate::graph::Bound::Excluded(n) => n,
        };
        let n = match self.chance.below(7) {
            0 => near(low),
            1 => near(high),
            2 => near(low).saturating_sub(1),
            3 => near(high).wrapping_add(1),
            4 => u32::MAX - near(high),
            5 => (u32::MAX - near(low)).saturating_add(1),
            _ => self.odd_time(),
        };
        let word = if self.chance.percent(50) {
            "has"
        } else {
            "shift"
        };
        format!("range {} {} {word} {n}", low.text(), high.text())
    }
}

/// An entry of the listing, from its answer.
pub fn entry(answer: &str) -> Option<(u32, usize, u32)> {
    let mut tokens = answer.strip_prefix("ok ")?.split(' ');
    let action = match tokens.next()? {
        "e" => EPSILON,
        number => number.parse().ok()?,
    };
    Some((
        action,
        tokens.next()?.parse().ok()?,
        tokens.next()?.parse().ok()?,
    ))
}

#[cfg(test)]
mod tests {
    #[test]
    fn entries_are_read() {
        assert_eq!(super::entry("ok e 1 3"), Some((u32::MAX, 1, 3)));
        assert_eq!(super::entry("ok 2 0 7"), Some((2, 0, 7)));
        assert_eq!(super::entry("end"), None);
        assert_eq!(super::entry("refused 32"), None);
    }
}
