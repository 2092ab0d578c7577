//! What was compared of systems: the names of their calls, and what queues of each sort and width did.

use std::collections::BTreeMap;
use std::fmt::Write;

use crate::system_model::queue_row;

/// The calls of the channel layer, in the order of the table.
pub const SYSTEM_CALLS: [&str; 38] = [
    "s new",
    "s graph",
    "s channel",
    "s capacity",
    "s build",
    "s var",
    "s clock",
    "s action",
    "s send",
    "s receive",
    "s empty",
    "s full",
    "s reset",
    "s effect",
    "s location",
    "s process",
    "s initial",
    "s transition",
    "s auto",
    "s kind",
    "t new",
    "t step",
    "t why",
    "t wait",
    "t can",
    "t waiting",
    "t list",
    "t pg",
    "t solo",
    "t time",
    "t run",
    "t queue",
    "t replay",
    "t show",
    "poke s",
    "poke t",
    "sum s",
    "sum t",
];

/// `s G var ..` is named `s var`.
pub fn second_token(tokens: &[&[u8]]) -> usize {
    let number = |token: &&[u8]| !token.is_empty() && token.iter().all(u8::is_ascii_digit);
    if tokens[0] == b"s" && tokens.get(1).is_some_and(number) {
        2
    } else {
        1
    }
}

#[derive(Default)]
struct Counts {
    sent: usize,
    received: usize,
    full: usize,
    empty: usize,
    probed: usize,
    /// The place of a value went back to the first slot.
    round: usize,
    /// A count passed 4294967295.
    wrapped: usize,
}

#[derive(Clone, Copy)]
struct Ring {
    read: u32,
    write: u32,
}

/// Follows channels, actions and rings by the accepted lines.
#[derive(Default)]
pub struct Queues {
    /// Sort and width of each channel.
    channels: Vec<(&'static str, usize)>,
    /// The channel of each communication, by graph and action.
    actions: BTreeMap<(String, String), usize>,
    rings: Vec<Ring>,
    counts: BTreeMap<(&'static str, usize), Counts>,
    /// How often each graph was the lowest that objected to a wait.
    objections: BTreeMap<String, usize>,
}

impl Queues {
    pub fn add(&mut self, line: &[u8], answer: &[u8]) {
        let (line, answer) = (
            String::from_utf8_lossy(line),
            String::from_utf8_lossy(answer),
        );
        let tokens: Vec<&str> = line.split(' ').collect();
        let answer: Vec<&str> = answer.split(' ').collect();
        match (tokens.as_slice(), answer.as_slice()) {
            (["s", "new"], _) => {
                self.channels.clear();
                self.actions.clear();
                self.rings.clear();
            }
            (["s", "channel", kinds, capacity], ["ok", _]) => {
                let width = kinds.len() - usize::from(*kinds == "-");
                let sort = match *capacity {
                    "sink" => "sink",
                    "q*" => "unbounded",
                    _ => "bounded",
                };
                self.channels.push((sort, width));
                self.rings.push(Ring { read: 0, write: 0 });
            }
            (
                [
                    "s",
                    graph,
                    "send" | "receive" | "empty" | "full",
                    channel,
                    ..,
                ],
                ["ok", action],
            ) => {
                if let Ok(channel) = channel.parse() {
                    let key = (plain(graph), action.to_string());
                    self.actions.insert(key, channel);
                }
            }
            (["t", "new"], ["ok"]) => self.rings.fill(Ring { read: 0, write: 0 }),
            (["poke", "t", place, word], ["ok"]) => self.poked(place, word),
            (["t", "step", ..], ["ok", _, channel, kind, values @ ..]) => {
                if let Ok(channel) = channel.parse() {
                    self.moved(channel, kind, values.len() as u32);
                }
            }
            (["t", "wait", _], ["refused", "9", graph]) => {
                *self.objections.entry(graph.to_string()).or_default() += 1;
            }
            (["t", "step", _, action, ..], ["refused", number]) => {
                if let Some((graph, action)) = action.split_once(':') {
                    let key = (plain(graph), plain(action));
                    self.refused(self.actions.get(&key).copied(), number);
                }
            }
            _ => {}
        }
    }

    fn poked(&mut self, place: &str, word: &str) {
        let (Ok(place), Ok(word)) = (place.parse::<usize>(), word.parse::<u64>()) else {
            return;
        };
        for (q, ring) in self.rings.iter_mut().enumerate() {
            if place == queue_row(q) {
                ring.read = word as u32;
            } else if place == queue_row(q) + 1 {
                ring.write = word as u32;
            }
        }
    }

    fn moved(&mut self, q: usize, kind: &str, values: u32) {
        let (Some(&sort), Some(ring)) = (self.channels.get(q), self.rings.get_mut(q)) else {
            return;
        };
        let counts = self.counts.entry(sort).or_default();
        let count = match kind {
            "send" => {
                counts.sent += 1;
                &mut ring.write
            }
            "receive" => {
                counts.received += 1;
                &mut ring.read
            }
            _ => {
                counts.probed += 1;
                return;
            }
        };
        if sort.0 == "sink" || values == 0 {
            return;
        }
        counts.round += usize::from(*count % 64 + values >= 64);
        let (next, wrapped) = count.overflowing_add(values);
        counts.wrapped += usize::from(wrapped);
        *count = next;
    }

    fn refused(&mut self, q: Option<usize>, number: &str) {
        let Some(&sort) = q.and_then(|q| self.channels.get(q)) else {
            return;
        };
        let counts = self.counts.entry(sort).or_default();
        match number {
            "20" | "27" => counts.full += 1,
            "21" => counts.empty += 1,
            _ => {}
        }
    }

    pub fn markdown(&self) -> String {
        let mut text = String::new();
        if self.counts.is_empty() {
            return text;
        }
        let _ = writeln!(
            text,
            "| Queue | Width | Sent | Received | Refused full | Refused empty | Probed | Begun again | Wrapped |\n\
             |---|---|---|---|---|---|---|---|---|"
        );
        for ((sort, width), c) in &self.counts {
            let _ = writeln!(
                text,
                "| {sort} | {width} | {} | {} | {} | {} | {} | {} | {} |",
                c.sent, c.received, c.full, c.empty, c.probed, c.round, c.wrapped
            );
        }
        let _ = writeln!(text, "\n| Graph | Waits refused 9 by it |\n|---|---|");
        for (graph, times) in &self.objections {
            let _ = writeln!(text, "| {graph} | {times} |");
        }
        text
    }
}

/// A number without zeros before it.
fn plain(number: &str) -> String {
    number
        .parse::<u32>()
        .map_or(number.to_string(), |n| n.to_string())
}

#[cfg(test)]
mod tests {
    use super::*;

    #[test]
    fn queues_are_followed() {
        let mut queues = Queues::default();
        for (line, answer) in [
            ("s channel bi q4", "ok 0"),
            ("s 0 send 0 { t } { #1 }", "ok 3"),
            ("t new", "ok"),
            ("poke t 378 4294967294", "ok"),
            ("t step 0 00:03 ( 0:0 ) 0", "ok 0 0 send b1 i1"),
            ("t step 0 0:3 ( 0:0 ) 0", "refused 20"),
            ("t step 0 0:4 ( 0:0 ) 0", "refused 21"),
        ] {
            queues.add(line.as_bytes(), answer.as_bytes());
        }
        let text = queues.markdown();
        assert!(
            text.contains("| bounded | 2 | 1 | 0 | 1 | 0 | 0 | 1 | 1 |"),
            "{text}"
        );
    }
}
