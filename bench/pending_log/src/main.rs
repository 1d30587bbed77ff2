//! The work of `crates/pending_log_bench`.

use std::collections::VecDeque;

const ROOM: usize = 4096;
const BATCH: u32 = 64;
const BATCHES: u32 = 64;

#[derive(Clone, Copy, PartialEq, Eq)]
struct RecordId {
    client: u32,
    number: u32,
}

impl RecordId {
    fn new(client: u32, number: u32) -> Option<RecordId> {
        (client <= 255 && number > 0).then_some(RecordId { client, number })
    }

    fn pack(self) -> u64 {
        u64::from(self.client) << 32 | u64::from(self.number)
    }
}

struct Item {
    id: RecordId,
    #[allow(dead_code)]
    bytes: Option<Vec<u8>>,
}

struct PendingLog {
    capacity: usize,
    items: VecDeque<Item>,
    words: VecDeque<u64>,
}

impl PendingLog {
    fn with_capacity(capacity: usize) -> PendingLog {
        PendingLog {
            capacity,
            items: VecDeque::with_capacity(capacity),
            words: VecDeque::with_capacity(capacity),
        }
    }

    fn len(&self) -> usize {
        self.items.len()
    }

    #[inline(never)]
    fn find(&self, id: RecordId) -> Option<usize> {
        let word = id.pack();
        self.words.iter().position(|other| *other == word)
    }

    fn push(&mut self, item: Item) -> Result<(), Item> {
        if self.items.len() == self.capacity {
            return Err(item);
        }
        self.words.push_back(item.id.pack());
        self.items.push_back(item);
        Ok(())
    }

    fn drop_front(&mut self, n: usize) {
        self.items.drain(..n);
        self.words.drain(..n);
    }
}

fn push_next(log: &mut PendingLog, number: u32) -> u64 {
    match RecordId::new(0, number) {
        Some(id) => u64::from(log.push(Item { id, bytes: None }).is_err()),
        None => 0,
    }
}

fn push_batch(log: &mut PendingLog, first: u32) -> u64 {
    let mut refused = 0u64;
    for i in 0..BATCH {
        refused = refused.wrapping_add(push_next(log, first + i));
    }
    refused
}

fn drop_batch(log: &mut PendingLog) {
    if log.len() > ROOM / 2 {
        log.drop_front(BATCH as usize);
    }
}

fn push_round(log: &mut PendingLog, first: u32) -> u64 {
    let mut refused = 0u64;
    for batch in 0..BATCHES {
        refused = refused.wrapping_add(push_batch(log, first + BATCH * batch));
        drop_batch(log);
    }
    refused
}

fn find(log: &PendingLog, number: u32) -> u64 {
    match RecordId::new(0, number) {
        Some(id) => log.find(id).unwrap_or(ROOM) as u64,
        None => 0,
    }
}

fn push_rounds(log: &mut PendingLog, rounds: u32) -> u64 {
    let mut sum = 0u64;
    let mut next = 1u32;
    for _ in 0..rounds {
        if next > u32::MAX / 2 {
            break;
        }
        sum = sum.wrapping_add(push_round(log, next));
        next += BATCH * BATCHES;
    }
    sum.wrapping_add(log.len() as u64).wrapping_add(u64::from(next))
}

fn find_rounds(log: &mut PendingLog, rounds: u32) -> u64 {
    let mut sum = 0u64;
    for batch in 0..BATCHES {
        sum = sum.wrapping_add(push_batch(log, 1 + BATCH * batch));
    }
    for round in 0..rounds {
        sum = sum.wrapping_add(find(log, BATCH * BATCHES - round % BATCH));
    }
    sum
}

fn main() {
    let mut arguments = std::env::args().skip(1);
    if let (Some(mode), Some(rounds)) = (arguments.next(), arguments.next()) {
        let rounds = rounds.parse().unwrap_or(0);
        let mut log = PendingLog::with_capacity(ROOM);
        let sum = match mode.as_str() {
            "push" => push_rounds(&mut log, rounds),
            "find" => find_rounds(&mut log, rounds),
            _ => 0,
        };
        println!("{sum}");
    }
}
