//! Recordings by docs/RULES.md, 'Recordings': blocks of 512 bytes, read a second time and without the port's code.

use crate::system_call::{Step, SystemRunning};

pub const BLOCK: usize = 512;
const RECORD: usize = 32;
const RECORDS: usize = 15;

/// The call of a record and the answer that was recorded.
pub struct Record {
    pub call: SystemRunning,
    pub recorded: u8,
}

/// The records of a block at a place of a recording; none where the block is bad.
pub fn block(bytes: &[u8], place: usize, last: bool) -> Option<Vec<Record>> {
    let bytes: &[u8; BLOCK] = bytes.try_into().ok()?;
    let weighed = bytes[..508].iter().zip(1u32..);
    let sum: u32 = weighed.map(|(byte, place)| u32::from(*byte) * place).sum();
    let count = usize::from(bytes[4]);
    let good = usize::try_from(number(&bytes[..4])) == Ok(place)
        && (count == RECORDS || last && count < RECORDS)
        && zeros(&bytes[5..28])
        && number(&bytes[508..]) == u64::from(sum);
    let records = bytes[28..508].chunks(RECORD);
    let (used, unused) = (records.clone().take(count).map(record), records.skip(count));
    let used: Option<Vec<Record>> = used.collect();
    used.filter(|_| good && unused.into_iter().all(zeros))
}

fn record(bytes: &[u8]) -> Option<Record> {
    let [kind, graph, count, 0, ..] = *bytes else {
        return None;
    };
    if !zeros(&bytes[25..]) {
        return None;
    }
    let amount = number(&bytes[4..8]) as u32;
    let (posts, word) = (&bytes[8..16], number(&bytes[16..24]));
    let call = match kind {
        1 if count <= 4 => {
            let (used, unused) = posts.split_at(2 * usize::from(count));
            if !zeros(unused) {
                return None;
            }
            let graph = u32::from(graph);
            SystemRunning::Step(Step {
                graph,
                action: (graph, amount),
                posts: used
                    .chunks(2)
                    .map(|post| (graph, number(post) as u32))
                    .collect(),
                word,
            })
        }
        2 if graph == 0 && count == 0 && zeros(posts) && word == 0 => SystemRunning::Wait(amount),
        _ => return None,
    };
    Some(Record {
        call,
        recorded: bytes[24],
    })
}

fn number(bytes: &[u8]) -> u64 {
    bytes
        .iter()
        .rev()
        .fold(0, |number, byte| number * 256 + u64::from(*byte))
}

fn zeros(bytes: &[u8]) -> bool {
    bytes.iter().all(|byte| *byte == 0)
}
