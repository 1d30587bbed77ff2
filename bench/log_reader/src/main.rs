//! The work of `crates/log_reader_bench`.

use std::sync::Arc;

const WIDTH: u32 = 256;
const SHARDS: u32 = 8;

#[derive(Clone, Copy)]
#[allow(dead_code)]
struct RecordId {
    client: u32,
    number: u32,
}

#[derive(Clone)]
#[allow(dead_code)]
enum Entry {
    Kept(RecordId, Arc<[u8]>),
    Noop(RecordId),
    Gone(RecordId),
}

#[derive(Clone, Copy)]
#[allow(dead_code)]
enum Ask {
    Range { from: u32, to: u32 },
    Tail { from: u32 },
}

#[allow(dead_code)]
enum Msg {
    Fetch { read: u32, from: u32, to: u32 },
    Part { read: u32, from: u32, end: u32, entries: Vec<(u32, Entry)> },
}

#[allow(dead_code)]
enum Event {
    Begin { client: u32, read: u32, ask: Ask },
    Answer { client: u32, read: u32, from: u32, entries: Vec<Entry>, tail: Option<u32> },
}

#[derive(Default)]
struct Outbox {
    sends: Vec<(u32, Msg)>,
    events: Vec<Event>,
}

struct Fetch {
    number: u32,
    from: u32,
    end: u32,
    tail: Option<u32>,
    parts: Vec<Option<Vec<(u32, Entry)>>>,
}

struct LogReader {
    clients: u32,
    client: u32,
    count: u32,
    reach: u32,
    fetch: Option<Fetch>,
}

fn shard_of(node: u32) -> Option<usize> {
    (264..264 + 4 * SHARDS)
        .contains(&node)
        .then(|| ((node - 264) / 4) as usize)
}

impl LogReader {
    #[inline(never)]
    fn ask(&mut self, from: u32, to: u32, out: &mut Outbox) -> bool {
        if self.fetch.is_some() || to < from || to - from > WIDTH {
            return false;
        }
        self.count += 1;
        let ask = Ask::Range { from, to };
        out.events.push(Event::Begin { client: self.client, read: self.count, ask });
        for shard in 0..SHARDS {
            out.sends.push((264 + 4 * shard, Msg::Fetch { read: self.count, from, to }));
        }
        self.fetch = Some(Fetch {
            number: self.count,
            from,
            end: to,
            tail: None,
            parts: (0..SHARDS).map(|_| None).collect(),
        });
        true
    }

    #[inline(never)]
    fn take(&mut self, node: u32, msg: &Msg, out: &mut Outbox) {
        let Msg::Part { read, from, end, entries } = msg else {
            return;
        };
        let Some(shard) = shard_of(node) else {
            return;
        };
        let known = entries.iter().all(|(_, entry)| match entry {
            Entry::Kept(id, _) | Entry::Noop(id) | Entry::Gone(id) => id.client < self.clients,
        });
        let Some(fetch) = &mut self.fetch else {
            return;
        };
        if !known || fetch.number != *read || fetch.from != *from || *end < fetch.end {
            return;
        }
        if fetch.parts[shard].is_some() {
            return;
        }
        let others = fetch.parts.iter().enumerate();
        if !others.into_iter().all(|(i, part)| i == shard || part.is_some()) {
            fetch.parts[shard] = Some(entries.clone());
            return;
        }
        let mut slots: Vec<Option<Entry>> = vec![None; (fetch.end - fetch.from) as usize];
        for (i, part) in fetch.parts.iter().enumerate() {
            let told = if i == shard { Some(entries) } else { part.as_ref() };
            for (place, entry) in told.into_iter().flatten() {
                if *place < fetch.from {
                    continue;
                }
                if let Some(slot) = slots.get_mut((place - fetch.from) as usize) {
                    if slot.is_none() {
                        *slot = Some(entry.clone());
                    }
                }
            }
        }
        let line: Vec<Entry> = slots.into_iter().flatten().collect();
        self.reach = self.reach.max(fetch.from + line.len() as u32);
        out.events.push(Event::Answer {
            client: self.client,
            read: fetch.number,
            from: fetch.from,
            entries: line,
            tail: fetch.tail,
        });
        self.fetch = None;
    }
}

fn part(shard: u32) -> (u32, Msg) {
    let entries = (0..WIDTH)
        .filter(|place| place % SHARDS == shard)
        .map(|place| {
            let id = RecordId { client: place % 16, number: place + 1 };
            (place, Entry::Kept(id, Arc::from(b"12345678".as_slice())))
        })
        .collect();
    (264 + 4 * shard, Msg::Part { read: 1, from: 0, end: WIDTH, entries })
}

fn line_sum(line: &[Entry]) -> u64 {
    line.iter().fold(0, |sum: u64, entry| {
        let number = match entry {
            Entry::Kept(id, _) | Entry::Noop(id) | Entry::Gone(id) => id.number,
        };
        sum.wrapping_mul(31).wrapping_add(u64::from(number))
    })
}

fn main() {
    let words: Vec<String> = std::env::args().collect();
    let back = words[1] == "back";
    let reads: u32 = words[2].parse().unwrap();
    let mut parts: Vec<(u32, Msg)> = (0..SHARDS)
        .map(|i| part(if back { SHARDS - 1 - i } else { i }))
        .collect();
    let mut reader = LogReader { clients: 16, client: 0, count: 0, reach: 0, fetch: None };
    let mut out = Outbox::default();
    let mut sum = 0u64;
    for number in 1..=reads {
        out.sends.clear();
        out.events.clear();
        assert!(reader.ask(0, WIDTH, &mut out));
        for (node, msg) in &mut parts {
            if let Msg::Part { read, .. } = msg {
                *read = number;
            }
            reader.take(*node, msg, &mut out);
        }
        let more = out.events.iter().fold(0u64, |all, event| match event {
            Event::Answer { entries, .. } => all.wrapping_add(line_sum(entries)),
            Event::Begin { .. } => all,
        });
        sum = sum.wrapping_mul(31).wrapping_add(more);
    }
    println!("{sum}");
}
