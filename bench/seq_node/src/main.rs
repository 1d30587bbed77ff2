//! The work of `crates/seq_node_bench`.

use std::collections::VecDeque;
use std::sync::Arc;

const ITEMS: u32 = 4_096;
const BATCH: u32 = 64;
const BATCHES: u32 = 64;
const FLIGHT: usize = 4;
const WINDOW: u32 = 4_096;

const POSITIONS: usize = 0x1_0000_0000;
const POSITION_LIMIT: usize = 61_440;

const CONTROLLER: u32 = 256;
const FIRST_SEQ: u32 = 257;
const FIRST_SHARD: u32 = 264;
const MAX_COPIES: u32 = 4;

const FIRST_FOLLOWER: u32 = 258;
const FOLLOWERS: u32 = 3;
const PRIMARY: u32 = 264;

type Bytes = Arc<[u8]>;

#[derive(Clone, Copy, PartialEq, Eq)]
struct RecordId {
    client: u32,
    number: u32,
}

impl RecordId {
    fn new(client: u32, number: u32) -> Option<RecordId> {
        (client <= 255 && number > 0).then_some(RecordId { client, number })
    }

    fn pack(self) -> u64 {
        u64::from(self.client) << 32 | u64::from(self.number)
    }
}

#[derive(Clone)]
struct Item {
    id: RecordId,
    bytes: Option<Bytes>,
}

#[allow(dead_code)]
enum Body {
    Elsewhere,
    Kept(Bytes),
    Noop,
    Open,
    Gone,
}

#[allow(dead_code)]
struct Cell {
    id: RecordId,
    body: Body,
}

#[allow(dead_code)]
enum Entry {
    Kept(RecordId, Bytes),
    Noop(RecordId),
    Gone(RecordId),
}

#[allow(dead_code)]
struct Marks {
    top: u32,
    bits: Vec<u64>,
}

#[allow(dead_code)]
struct Config {
    view: u32,
    seq: Vec<u32>,
    shards: Vec<Vec<u32>>,
}

#[allow(dead_code)]
enum Msg {
    Append { view: u32, id: RecordId, bytes: Option<Bytes> },
    AppendAck { view: u32, id: RecordId },
    Put { id: RecordId, bytes: Bytes },
    DataAck { view: u32, id: RecordId },
    Rejected { id: RecordId, place: u32 },
    Place { view: u32, from: u32, items: Vec<Item> },
    Placed { view: u32, upto: u32 },
    Copy { view: u32, from: u32, cells: Vec<Cell> },
    Copied { view: u32, upto: u32 },
    Order { view: u32, from: u32, ids: Vec<RecordId> },
    Ordered { view: u32, upto: u32 },
    Stable { view: u32, upto: u32 },
    Probe { view: u32, read: u32 },
    ProbeAck { view: u32, read: u32 },
    TailReady { view: u32, read: u32, tail: u32 },
    Fetch { read: u32, from: u32, to: u32 },
    Part { read: u32, from: u32, end: u32, entries: Vec<(u32, Entry)> },
    Flush { config: Config, from: u32, items: Vec<Item> },
    FlushCopy { view: u32, from: u32, cells: Vec<Cell> },
    Flushed { view: u32 },
    Seal { view: u32 },
    Sealed { view: u32, bound: u32, window: Vec<Marks>, items: Vec<Item> },
    SealedEmpty { view: u32 },
    NewView { config: Config, base: u32, window: Vec<Marks> },
    Started { view: u32 },
    AskView,
    ViewIs { config: Config },
    Claim { stable: u32 },
    Trim { read: u32, floor: u32 },
    TrimAck { read: u32 },
    TrimmedAt { read: u32, floor: u32 },
}

fn data_weight(bytes: &Option<Bytes>) -> u64 {
    bytes.as_ref().map_or(0, |bytes| bytes.len() as u64)
}

fn items_weight(items: &[Item]) -> u64 {
    items.iter().map(|item| 16 + data_weight(&item.bytes)).sum()
}

fn cells_weight(cells: &[Cell]) -> u64 {
    let weight = |cell: &Cell| match &cell.body {
        Body::Kept(bytes) => 16 + bytes.len() as u64,
        _ => 16,
    };
    cells.iter().map(weight).sum()
}

fn entries_weight(entries: &[(u32, Entry)]) -> u64 {
    let weight = |(_, entry): &(u32, Entry)| match entry {
        Entry::Kept(_, bytes) => 16 + bytes.len() as u64,
        _ => 16,
    };
    entries.iter().map(weight).sum()
}

fn window_weight(window: &[Marks]) -> u64 {
    window.iter().map(|marks| 32 + 8 * marks.bits.len() as u64).sum()
}

impl Msg {
    fn weight(&self) -> u64 {
        let members = match self {
            Msg::Append { bytes, .. } => data_weight(bytes),
            Msg::Put { bytes, .. } => bytes.len() as u64,
            Msg::Place { items, .. } | Msg::Flush { items, .. } => items_weight(items),
            Msg::Copy { cells, .. } | Msg::FlushCopy { cells, .. } => cells_weight(cells),
            Msg::Order { ids, .. } => 16 * ids.len() as u64,
            Msg::Part { entries, .. } => entries_weight(entries),
            Msg::Sealed { window, items, .. } => window_weight(window) + items_weight(items),
            Msg::NewView { window, .. } => window_weight(window),
            _ => 0,
        };
        64 + members
    }
}

#[allow(dead_code)]
struct Envelope {
    from: u32,
    to: u32,
    time: u64,
    msg: Msg,
}

enum Input {
    Take(Envelope),
    Tick,
}

struct Over;

struct Outbox {
    sends: Vec<(u32, Msg)>,
    weight: u64,
    room_messages: usize,
    room_weight: u64,
}

impl Outbox {
    fn new(room_messages: usize, room_weight: u64) -> Outbox {
        Outbox {
            sends: Vec::new(),
            weight: 0,
            room_messages,
            room_weight,
        }
    }

    fn put(&mut self, sends: Vec<(u32, Msg)>) -> Result<(), Over> {
        let weight: u64 = sends.iter().map(|(_, msg)| msg.weight()).sum();
        if sends.len() > self.room_messages - self.sends.len() {
            return Err(Over);
        }
        if weight > self.room_weight - self.weight {
            return Err(Over);
        }
        self.sends.extend(sends);
        self.weight += weight;
        Ok(())
    }

    fn send(&mut self, to: u32, msg: Msg) -> Result<(), Over> {
        let weight = msg.weight();
        if self.sends.len() == self.room_messages || weight > self.room_weight - self.weight {
            return Err(Over);
        }
        self.sends.push((to, msg));
        self.weight += weight;
        Ok(())
    }
}

struct ClientMarks {
    top: u32,
    bits: Vec<u64>,
}

fn move_up(bits: &mut [u64], by: usize) {
    let words = (by / 64).min(bits.len());
    if words > 0 {
        let rest = bits.len() - words;
        bits.copy_within(..rest, words);
        bits[..words].fill(0);
    }
    let by = by % 64;
    if by > 0 {
        let mut carried = 0;
        for word in bits.iter_mut() {
            let next = *word >> (64 - by);
            *word = (*word << by) | carried;
            carried = next;
        }
    }
}

impl ClientMarks {
    fn seen(&self, number: u32) -> bool {
        if number > self.top {
            return false;
        }
        let below = (self.top - number) as usize;
        match self.bits.get(below / 64) {
            Some(word) => (word >> (below % 64)) & 1 == 1,
            None => true,
        }
    }

    fn mark(&mut self, number: u32) {
        if number > self.top {
            move_up(&mut self.bits, (number - self.top) as usize);
            self.top = number;
        }
        let below = (self.top - number) as usize;
        if let Some(word) = self.bits.get_mut(below / 64) {
            *word |= 1 << (below % 64);
        }
    }
}

struct Batch {
    from: u32,
    count: u32,
    ordering: bool,
    placed: Vec<u32>,
    ordered: Vec<u32>,
}

impl Batch {
    fn end(&self) -> u32 {
        self.from + self.count
    }
}

struct Read {
    client: u32,
    number: u32,
    target: u32,
}

/// Nodes by their numbers: clients from 0 on, the controller, sequencing replicas, shard replicas.
#[derive(Clone, Copy)]
struct Shape {
    seq: u32,
    spares: u32,
    shards: u32,
    copies: u32,
    clients: u32,
}

impl Shape {
    fn has_node(&self, number: u32) -> bool {
        if number < self.clients || number == CONTROLLER {
            return true;
        }
        if FIRST_SEQ <= number && number < FIRST_SEQ + self.seq + self.spares {
            return true;
        }
        FIRST_SHARD <= number
            && number < FIRST_SHARD + MAX_COPIES * self.shards
            && (number - FIRST_SHARD) % MAX_COPIES < self.copies
    }
}

struct SeqNode {
    shape: Shape,
    node: u32,
    view: u32,
    config: Config,
    sealed: bool,
    bound: u32,
    window: Vec<ClientMarks>,
    pending: VecDeque<Item>,
    words: VecDeque<u64>,
    flight: Vec<Batch>,
    reads: Vec<Read>,
}

impl SeqNode {
    fn new() -> SeqNode {
        SeqNode {
            shape: Shape {
                seq: 4,
                spares: 0,
                shards: 1,
                copies: 1,
                clients: 16,
            },
            node: 257,
            view: 1,
            config: Config {
                view: 1,
                seq: (257..257 + 4).collect(),
                shards: vec![vec![PRIMARY]],
            },
            sealed: false,
            bound: 0,
            window: (0..16)
                .map(|_| ClientMarks {
                    top: 0,
                    bits: vec![0; (WINDOW / 64) as usize],
                })
                .collect(),
            pending: VecDeque::with_capacity(ITEMS as usize),
            words: VecDeque::with_capacity(ITEMS as usize),
            flight: Vec::with_capacity(FLIGHT),
            reads: Vec::new(),
        }
    }

    fn is_active(&self, view: u32) -> bool {
        self.view == view && view >= 1 && !self.sealed
    }

    fn is_leading(&self, view: u32) -> bool {
        self.is_active(view)
            && self.config.seq.first() == Some(&self.node)
            && self.bound as usize + self.pending.len() < POSITIONS
    }

    fn append(
        &mut self,
        from: u32,
        view: u32,
        id: RecordId,
        bytes: &Option<Bytes>,
        out: &mut Outbox,
    ) -> Result<(), Over> {
        if !self.shape.has_node(from) {
            return Ok(());
        }
        let Some(marks) = self.window.get_mut(id.client as usize) else {
            return Ok(());
        };
        if self.view != view || view < 1 || self.sealed {
            return Ok(());
        }
        if marks.seen(id.number) {
            return out.send(id.client, Msg::AppendAck { view, id });
        }
        let count = self.pending.len();
        if count < ITEMS as usize && self.bound as usize + count < POSITION_LIMIT {
            out.send(id.client, Msg::AppendAck { view, id })?;
            self.words.push_back(id.pack());
            self.pending.push_back(Item { id, bytes: bytes.clone() });
            marks.mark(id.number);
        }
        Ok(())
    }

    fn place(&self, from: u32, count: u32, sends: &mut Vec<(u32, Msg)>) {
        let first = (from - self.bound) as usize;
        for shard in &self.config.shards {
            let items = self.pending.range(first..first + count as usize).cloned().collect();
            sends.push((shard[0], Msg::Place { view: self.view, from, items }));
        }
    }

    fn order(&self, from: u32, count: u32, answered: &[u32], sends: &mut Vec<(u32, Msg)>) {
        let first = (from - self.bound) as usize;
        for (i, follower) in self.config.seq[1..].iter().enumerate() {
            if answered.contains(&(i as u32)) {
                continue;
            }
            let ids = self
                .pending
                .range(first..first + count as usize)
                .map(|item| item.id)
                .collect();
            sends.push((*follower, Msg::Order { view: self.view, from, ids }));
        }
    }

    fn begin(&mut self, sends: &mut Vec<(u32, Msg)>) {
        let from = self.flight.last().map_or(self.bound, Batch::end);
        let rest = self.bound + self.pending.len() as u32 - from;
        if self.flight.len() == FLIGHT || rest == 0 {
            return;
        }
        let count = rest.min(BATCH);
        self.place(from, count, sends);
        self.flight.push(Batch {
            from,
            count,
            ordering: false,
            placed: Vec::new(),
            ordered: Vec::new(),
        });
    }

    fn tick(&mut self, out: &mut Outbox) -> Result<(), Over> {
        if !self.is_leading(self.view) {
            return Ok(());
        }
        let mut sends = Vec::new();
        for batch in &self.flight {
            if batch.ordering {
                self.order(batch.from, batch.count, &batch.ordered, &mut sends);
            } else {
                self.place(batch.from, batch.count, &mut sends);
            }
        }
        self.begin(&mut sends);
        out.put(sends)
    }

    fn finish(&mut self, sends: &mut Vec<(u32, Msg)>) {
        let followers = self.config.seq.len() - 1;
        let mut left = false;
        while self
            .flight
            .first()
            .is_some_and(|batch| batch.ordering && batch.ordered.len() == followers)
        {
            let batch = self.flight.remove(0);
            left = true;
            self.bound += batch.count;
            self.pending.drain(..batch.count as usize);
            self.words.drain(..batch.count as usize);
            let (view, bound) = (self.view, self.bound);
            for shard in &self.config.shards {
                for node in shard {
                    sends.push((*node, Msg::Stable { view, upto: bound }));
                }
            }
            self.reads.retain(|read| {
                if read.target <= bound {
                    sends.push((
                        read.client,
                        Msg::TailReady { view, read: read.number, tail: read.target },
                    ));
                }
                read.target > bound
            });
        }
        if left {
            let end = self.flight.last().map_or(self.bound, Batch::end);
            if self.reads.iter().any(|read| read.target > end) {
                self.begin(sends);
            }
        }
    }

    fn placed(&mut self, from: u32, view: u32, upto: u32, out: &mut Outbox) -> Result<(), Over> {
        if !self.shape.has_node(from) || !self.is_leading(view) {
            return Ok(());
        }
        let Some(shard) = self.config.shards.iter().position(|nodes| nodes[0] == from) else {
            return Ok(());
        };
        let Some(batch) = self
            .flight
            .iter_mut()
            .find(|batch| !batch.ordering && batch.end() == upto)
        else {
            return Ok(());
        };
        if !batch.placed.contains(&(shard as u32)) {
            batch.placed.push(shard as u32);
        }
        let mut sends = Vec::new();
        let shards = self.config.shards.len();
        for i in 0..self.flight.len() {
            let batch = &mut self.flight[i];
            if batch.ordering {
                continue;
            }
            if batch.placed.len() < shards {
                break;
            }
            batch.ordering = true;
            let (from, count) = (batch.from, batch.count);
            self.order(from, count, &[], &mut sends);
        }
        self.finish(&mut sends);
        out.put(sends)
    }

    fn ordered(&mut self, from: u32, view: u32, upto: u32, out: &mut Outbox) -> Result<(), Over> {
        if !self.shape.has_node(from) || !self.is_leading(view) {
            return Ok(());
        }
        let Some(follower) = self.config.seq[1..].iter().position(|node| *node == from) else {
            return Ok(());
        };
        let Some(batch) = self
            .flight
            .iter_mut()
            .find(|batch| batch.ordering && batch.end() == upto)
        else {
            return Ok(());
        };
        if !batch.ordered.contains(&(follower as u32)) {
            batch.ordered.push(follower as u32);
        }
        let mut sends = Vec::new();
        self.finish(&mut sends);
        out.put(sends)
    }

    fn step(&mut self, input: &Input, out: &mut Outbox) -> Result<(), Over> {
        match input {
            Input::Tick => self.tick(out),
            Input::Take(Envelope { from, msg, .. }) => match msg {
                Msg::Append { view, id, bytes } => self.append(*from, *view, *id, bytes, out),
                Msg::Placed { view, upto } => self.placed(*from, *view, *upto, out),
                Msg::Ordered { view, upto } => self.ordered(*from, *view, *upto, out),
                _ => Ok(()),
            },
        }
    }
}

fn forget(out: &mut Outbox) -> u64 {
    let weight = out.weight;
    out.sends.clear();
    out.weight = 0;
    weight
}

#[inline(never)]
fn step(node: &mut SeqNode, input: &Input, out: &mut Outbox) -> u64 {
    if node.step(input, out).is_err() {
        std::process::exit(1);
    }
    forget(out)
}

fn take(node: &mut SeqNode, from: u32, msg: Msg, out: &mut Outbox) -> u64 {
    let envelope = Envelope { from, to: 257, time: 0, msg };
    step(node, &Input::Take(envelope), out)
}

fn append(node: &mut SeqNode, number: u32, out: &mut Outbox) -> u64 {
    let client = number % 16;
    match RecordId::new(client, 1 + number / 16) {
        Some(id) => take(node, client, Msg::Append { view: 1, id, bytes: None }, out),
        None => 0,
    }
}

fn append_all(node: &mut SeqNode, out: &mut Outbox) -> u64 {
    (0..ITEMS).fold(0u64, |sum, number| sum.wrapping_add(append(node, number, out)))
}

fn bind_next(node: &mut SeqNode, upto: u32, out: &mut Outbox) -> u64 {
    let mut sum = step(node, &Input::Tick, out);
    sum = sum.wrapping_add(take(node, PRIMARY, Msg::Placed { view: 1, upto }, out));
    for follower in FIRST_FOLLOWER..FIRST_FOLLOWER + FOLLOWERS {
        sum = sum.wrapping_add(take(node, follower, Msg::Ordered { view: 1, upto }, out));
    }
    sum
}

fn new_round(out: &mut Outbox, bind: bool) -> u64 {
    let mut node = SeqNode::new();
    let mut sum = append_all(&mut node, out);
    if bind {
        for batch in 1..=BATCHES {
            sum = sum.wrapping_add(bind_next(&mut node, BATCH * batch, out));
        }
    }
    sum.wrapping_add(u64::from(node.bound))
}

fn new_rounds(rounds: u32, bind: bool) -> u64 {
    let mut out = Outbox::new(64, 1_000_000);
    (0..rounds).fold(0u64, |sum, _| sum.wrapping_add(new_round(&mut out, bind)))
}

fn known_rounds(rounds: u32) -> u64 {
    let mut out = Outbox::new(64, 1_000_000);
    let mut node = SeqNode::new();
    let first = append_all(&mut node, &mut out);
    (0..rounds).fold(first, |sum, _| sum.wrapping_add(append_all(&mut node, &mut out)))
}

fn main() {
    let mut arguments = std::env::args().skip(1);
    if let (Some(mode), Some(rounds)) = (arguments.next(), arguments.next()) {
        let rounds = rounds.parse().unwrap_or(0);
        let sum = match mode.as_str() {
            "new" => new_rounds(rounds, false),
            "known" => known_rounds(rounds),
            "bind" => new_rounds(rounds, true),
            _ => 0,
        };
        println!("{sum}");
    }
}
