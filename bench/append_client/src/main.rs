//! The plain twin of crates/append_client_bench: the same work, in Rust.

use std::collections::VecDeque;
use std::sync::Arc;

const APPENDS: u32 = 4_096;
const REPLICAS: u32 = 3;
const TICKS: u32 = 256;
const WINDOW: u32 = 4_096;
const RECORD_LIMIT: usize = 65_536;
const RESENT_LIMIT: usize = 8;

#[derive(Clone, Copy, PartialEq, Eq)]
struct RecordId {
    client: u32,
    number: u32,
}

#[allow(dead_code)]
enum Msg {
    Append {
        view: u32,
        id: RecordId,
        bytes: Option<Arc<[u8]>>,
    },
    AppendAck {
        view: u32,
        id: RecordId,
    },
}

#[allow(dead_code)]
struct Envelope {
    from: u32,
    to: u32,
    time: u64,
    msg: Msg,
}

enum Input {
    Take(Envelope),
    Tick,
}

#[allow(dead_code)]
enum Event {
    Invoke(RecordId, Arc<[u8]>),
    Acked(RecordId),
}

struct Outbox {
    sends: Vec<(u32, Msg)>,
    events: Vec<Event>,
    weight: u64,
    room_messages: usize,
    room_weight: u64,
}

#[derive(PartialEq, Eq, Debug)]
enum Refused {
    TooLong,
    NumbersSpent,
    WindowFull,
    Over,
}

fn weight(msg: &Msg) -> u64 {
    match msg {
        Msg::Append { bytes, .. } => 64 + bytes.as_ref().map_or(0, |bytes| bytes.len() as u64),
        Msg::AppendAck { .. } => 64,
    }
}

impl Outbox {
    fn put(&mut self, mut sends: Vec<(u32, Msg)>, mut events: Vec<Event>) -> Result<(), Refused> {
        if sends.len() > self.room_messages - self.sends.len() {
            return Err(Refused::Over);
        }
        let more: u64 = sends.iter().map(|send| weight(&send.1)).sum();
        if more > self.room_weight - self.weight {
            return Err(Refused::Over);
        }
        self.sends.append(&mut sends);
        self.events.append(&mut events);
        self.weight += more;
        Ok(())
    }

    fn clear(&mut self) {
        self.sends.clear();
        self.events.clear();
        self.weight = 0;
    }
}

struct OpenAppend {
    number: u32,
    bytes: Arc<[u8]>,
    acked: Vec<u32>,
}

struct Client {
    client: u32,
    clients: u32,
    view: u32,
    seq: Vec<u32>,
    first: u32,
    slots: VecDeque<Option<OpenAppend>>,
}

impl Client {
    fn new() -> Client {
        Client {
            client: 0,
            clients: 1,
            view: 1,
            seq: (257..257 + REPLICAS).collect(),
            first: 1,
            slots: VecDeque::new(),
        }
    }

    fn next(&self) -> u32 {
        self.first + self.slots.len() as u32
    }

    fn sending(&self, id: RecordId, bytes: &Arc<[u8]>, acked: &[u32]) -> Vec<(u32, Msg)> {
        let mut sends = Vec::new();
        for node in &self.seq {
            if !acked.contains(node) {
                let bytes = Some(bytes.clone());
                let view = self.view;
                sends.push((*node, Msg::Append { view, id, bytes }));
            }
        }
        sends
    }

    fn post(&mut self, bytes: Arc<[u8]>, out: &mut Outbox) -> Result<RecordId, Refused> {
        if bytes.len() > RECORD_LIMIT {
            return Err(Refused::TooLong);
        }
        let number = self.next();
        if number == u32::MAX {
            return Err(Refused::NumbersSpent);
        }
        if u64::from(self.first) + u64::from(WINDOW) <= u64::from(number) {
            return Err(Refused::WindowFull);
        }
        let client = self.client;
        let id = RecordId { client, number };
        let sends = self.sending(id, &bytes, &[]);
        out.put(sends, vec![Event::Invoke(id, bytes.clone())])?;
        self.slots.push_back(Some(OpenAppend {
            number,
            bytes,
            acked: Vec::new(),
        }));
        Ok(id)
    }

    fn slot_of(&self, number: u32) -> Option<usize> {
        let slot = number.checked_sub(self.first)? as usize;
        (slot < self.slots.len()).then_some(slot)
    }

    fn acknowledged(&mut self, from: u32, id: RecordId, out: &mut Outbox) -> Result<(), Refused> {
        let Some(slot) = self.slot_of(id.number) else {
            return Ok(());
        };
        let Some(append) = &mut self.slots[slot] else {
            return Ok(());
        };
        let has = |node: &u32| *node == from || append.acked.contains(node);
        if !self.seq.iter().all(has) {
            if !append.acked.contains(&from) {
                append.acked.push(from);
            }
            return Ok(());
        }
        out.put(Vec::new(), vec![Event::Acked(id)])?;
        self.slots[slot] = None;
        while let Some(None) = self.slots.front() {
            self.slots.pop_front();
            self.first += 1;
        }
        Ok(())
    }

    fn tick(&self, out: &mut Outbox) -> Result<(), Refused> {
        let mut sends = Vec::new();
        for append in self.slots.iter().flatten().take(RESENT_LIMIT) {
            let client = self.client;
            let number = append.number;
            let id = RecordId { client, number };
            sends.append(&mut self.sending(id, &append.bytes, &append.acked));
        }
        out.put(sends, Vec::new())
    }

    fn has_node(&self, node: u32) -> bool {
        node < self.clients || node == 256 || (257..257 + REPLICAS).contains(&node) || node == 264
    }

    fn step(&mut self, input: &Input, out: &mut Outbox) -> Result<(), Refused> {
        match input {
            Input::Tick => self.tick(out),
            Input::Take(envelope) => match &envelope.msg {
                Msg::AppendAck { view, id } => {
                    if !self.has_node(envelope.from) || id.client >= self.clients {
                        return Ok(());
                    }
                    if *view != self.view || id.client != self.client {
                        return Ok(());
                    }
                    if !self.seq.contains(&envelope.from) {
                        return Ok(());
                    }
                    self.acknowledged(envelope.from, *id, out)
                }
                Msg::Append { .. } => Ok(()),
            },
        }
    }

    fn is_finished(&self, number: u32) -> bool {
        if number == 0 || number >= self.next() {
            return false;
        }
        match self.slot_of(number) {
            Some(slot) => self.slots[slot].is_none(),
            None => true,
        }
    }
}

fn outcome(sum: u64, out: &mut Outbox) -> u64 {
    let sends = out.sends.len() as u64;
    let events = out.events.len() as u64;
    out.clear();
    sum.wrapping_mul(31)
        .wrapping_add(sends)
        .wrapping_mul(31)
        .wrapping_add(events)
}

fn post_all(client: &mut Client, out: &mut Outbox) -> u64 {
    let mut sum = 0;
    for _post in 0..APPENDS {
        client.post(Arc::from(&b"12345678"[..]), out).unwrap();
        sum = outcome(sum, out);
    }
    sum
}

fn acknowledge(client: &mut Client, number: u32, out: &mut Outbox, sum: u64) -> u64 {
    let mut sum = sum;
    for replica in 0..REPLICAS {
        let id = RecordId { client: 0, number };
        let input = Input::Take(Envelope {
            from: 257 + replica,
            to: 0,
            time: 1,
            msg: Msg::AppendAck { view: 1, id },
        });
        client.step(&input, out).unwrap();
        sum = outcome(sum, out);
    }
    sum
}

fn round(mode: &str) -> u64 {
    let mut client = Client::new();
    let mut out = Outbox {
        sends: Vec::new(),
        events: Vec::new(),
        weight: 0,
        room_messages: APPENDS as usize,
        room_weight: 1_000_000,
    };
    let mut sum = post_all(&mut client, &mut out);
    if mode == "tick" {
        for _tick in 0..TICKS {
            client.step(&Input::Tick, &mut out).unwrap();
            sum = outcome(sum, &mut out);
        }
    } else {
        for i in 0..APPENDS {
            let number = if mode == "reverse" { APPENDS - i } else { i + 1 };
            sum = acknowledge(&mut client, number, &mut out, sum);
        }
    }
    let finished = (0..APPENDS).filter(|number| client.is_finished(*number));
    sum.wrapping_add(finished.count() as u64)
}

fn main() {
    let words: Vec<String> = std::env::args().collect();
    let rounds = words[2].parse::<u32>().unwrap_or(0);
    let mut sum = 0u64;
    for _round in 0..rounds {
        sum = sum.wrapping_mul(31).wrapping_add(round(&words[1]));
    }
    println!("{sum}");
}
