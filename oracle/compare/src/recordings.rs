//! Recordings of calls that were made, whole and spoilt, each replayed from a fresh state between two sums.

use crate::system_building::SystemMaker;

const BLOCK: usize = 512;
const RECORD: usize = 32;
const RECORDS: usize = 15;
/// As many records as a line holds.
const MOST: usize = 3 * RECORDS;

pub type Record = [u8; RECORD];

/// A step as a record, where it can be one.
pub fn step(graph: u32, action: (u32, u32), posts: &[(u32, u32)], word: u64) -> Option<Record> {
    let own = action.0 == graph && posts.iter().all(|post| post.0 == graph);
    if !own || posts.len() > 4 {
        return None;
    }
    let mut record = [0; RECORD];
    (record[0], record[1], record[2]) = (1, u8::try_from(graph).ok()?, posts.len() as u8);
    record[4..8].copy_from_slice(&action.1.to_le_bytes());
    for (at, (_, post)) in posts.iter().enumerate() {
        let post = u16::try_from(*post).ok()?;
        record[8 + 2 * at..10 + 2 * at].copy_from_slice(&post.to_le_bytes());
    }
    record[16..24].copy_from_slice(&word.to_le_bytes());
    Some(record)
}

pub fn wait(delta: u32) -> Record {
    let mut record = [0; RECORD];
    record[0] = 2;
    record[4..8].copy_from_slice(&delta.to_le_bytes());
    record
}

/// The number that a record has for an answer.
pub fn number(answer: &str) -> u8 {
    let number = answer
        .strip_prefix("refused ")
        .and_then(|rest| rest.split(' ').next());
    number.and_then(|n| n.parse().ok()).unwrap_or(0)
}

fn sealed(block: &mut [u8]) {
    let weighed = block[..508].iter().zip(1u32..);
    let sum: u32 = weighed.map(|(byte, place)| u32::from(*byte) * place).sum();
    block[508..].copy_from_slice(&sum.to_le_bytes());
}

fn written(records: &[Record]) -> Vec<u8> {
    let mut bytes = vec![];
    for (place, records) in records.chunks(RECORDS).enumerate() {
        let mut block = [0; BLOCK];
        block[..4].copy_from_slice(&(place as u32).to_le_bytes());
        block[4] = records.len() as u8;
        block[28..28 + RECORD * records.len()].copy_from_slice(&records.concat());
        sealed(&mut block);
        bytes.extend(block);
    }
    bytes
}

fn hex(bytes: &[u8]) -> String {
    match bytes {
        [] => "-".to_string(),
        bytes => bytes.iter().map(|byte| format!("{byte:02x}")).collect(),
    }
}

impl SystemMaker<'_> {
    /// Notes a call that can be a record, with its answer.
    pub fn note(&mut self, record: Option<Record>, answer: &str) {
        if let Some(mut record) = record
            && self.made.len() < MOST
        {
            record[24] = number(answer);
            self.made.push(record);
        }
    }

    /// What was made since the last start, replayed from a start: a few recordings of it, most of them spoilt.
    pub fn recordings(&mut self) {
        let made = std::mem::take(&mut self.made);
        if self.maker.say("t new") != "ok" {
            return;
        }
        if self.maker.chance.percent(3) {
            return self.every_byte(&made);
        }
        self.maker.say("sum t");
        for _ in 0..self.maker.chance.from_to(2, 6) {
            let bytes = self.spoilt_recording(&made);
            self.maker.say(format!("t replay {}", hex(&bytes)));
            self.maker.say("sum t");
        }
        self.maker.say(format!("t replay {}", hex(&written(&made))));
        self.maker.say("t show");
        self.start();
    }

    /// Every byte of a good block spoilt in turn: as many lines as it has bytes, and the script's last.
    fn every_byte(&mut self, made: &[Record]) {
        let count = self.maker.chance.from_to(1, RECORDS).min(made.len());
        let bytes = written(&made[..count]);
        self.maker.wanted = self.maker.lines.len() + bytes.len() + 4;
        self.maker.say("sum t");
        for at in 0..bytes.len() {
            let mut bytes = bytes.clone();
            bytes[at] ^= 1 << self.maker.chance.below(8);
            self.maker.say(format!("t replay {}", hex(&bytes)));
        }
        self.maker.say("sum t");
        self.maker.wanted = self.maker.lines.len();
    }

    fn spoilt_recording(&mut self, made: &[Record]) -> Vec<u8> {
        let mut records = made.to_vec();
        if self.maker.chance.percent(30) {
            records.truncate(self.maker.chance.below(records.len() + 1));
        }
        let at = self.maker.chance.below(records.len());
        match (self.maker.chance.below(12), records.get_mut(at)) {
            // Another answer: found there, if not before.
            (0..=2, Some(record)) => record[24] ^= 1 << self.maker.chance.below(8),
            (3, Some(record)) => record[16] ^= 1,
            (4, Some(record)) => {
                record[self.maker.chance.below(RECORD)] ^= 1 << self.maker.chance.below(8)
            }
            (5, Some(record)) => record[2] = self.maker.chance.below(7) as u8,
            (6, Some(record)) => record[8 + self.maker.chance.below(8)] = 1,
            _ => {}
        }
        let mut bytes = written(&records);
        self.spoil(&mut bytes);
        bytes
    }

    /// A byte, a short end, blocks that change places, a count in the middle.
    fn spoil(&mut self, bytes: &mut Vec<u8>) {
        let blocks = bytes.len() / BLOCK;
        if blocks == 0 {
            return;
        }
        let at = self.maker.chance.below(bytes.len());
        let block = BLOCK * self.maker.chance.below(blocks);
        match self.maker.chance.below(12) {
            0..=1 => bytes[at] ^= 1 << self.maker.chance.below(8),
            2 => {
                bytes[at] ^= 1 << self.maker.chance.below(8);
                sealed(&mut bytes[at / BLOCK * BLOCK..][..BLOCK]);
            }
            3 => bytes.truncate(at),
            4 => bytes.extend(vec![0; self.maker.chance.below(400)]),
            5 => bytes.rotate_left(block),
            6 => bytes.copy_within(block..block + BLOCK, 0),
            7 => {
                // Fewer records than there is room for, and the others zeros.
                let count = self.maker.chance.below(RECORDS);
                bytes[block + 4] = count as u8;
                bytes[block + 28 + RECORD * count..block + 508].fill(0);
                sealed(&mut bytes[block..][..BLOCK]);
            }
            8 => {
                bytes[block + 4] = self.maker.chance.below(18) as u8;
                sealed(&mut bytes[block..][..BLOCK]);
            }
            9 => {
                bytes[block + 5 + self.maker.chance.below(23)] = 1;
                sealed(&mut bytes[block..][..BLOCK]);
            }
            _ => {}
        }
        bytes.truncate(2000);
    }
}
