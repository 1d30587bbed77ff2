//! The work of `crates/shard_node_bench`.

use std::collections::HashMap;
use std::sync::Arc;

type Bytes = Arc<[u8]>;

const BATCH: u32 = 64;
const BATCHES: u32 = 1_024;
const WIDTH: u32 = 256;
const JOBS: usize = 4;
const CONTROLLER: u32 = 256;
const FIRST_SEQ: u32 = 257;
const FIRST_SHARD: u32 = 264;
const MAX_COPIES: u32 = 4;

/// What an outbox may weigh.
const ROOM: u64 = 1_048_576;

const LEADER: u32 = 257;
const PRIMARY: u32 = 264;

#[derive(Clone, Copy, PartialEq, Eq, Hash)]
struct RecordId {
    client: u32,
    number: u32,
}

#[derive(Clone)]
struct Item {
    id: RecordId,
    bytes: Option<Bytes>,
}

#[derive(Clone, PartialEq)]
#[allow(dead_code)]
enum Body {
    Elsewhere,
    Kept(Bytes),
    Noop,
    Open,
    Gone,
}

#[allow(dead_code)]
enum Entry {
    Kept(RecordId, Bytes),
    Noop(RecordId),
    Gone(RecordId),
}

#[derive(Clone)]
struct Cell {
    id: RecordId,
    body: Body,
}

fn bucket(size: usize, id: RecordId) -> usize {
    ((u64::from(id.client) * 40_503 + u64::from(id.number)) % size as u64) as usize
}

struct ShardStore {
    cells: Vec<Cell>,
    heads: Vec<u32>,
    before: Vec<u32>,
    opens: Vec<u32>,
    held: HashMap<RecordId, Bytes>,
    stable: u32,
}

impl ShardStore {
    fn new() -> ShardStore {
        ShardStore {
            cells: Vec::new(),
            heads: Vec::new(),
            before: Vec::new(),
            opens: Vec::new(),
            held: HashMap::new(),
            stable: 0,
        }
    }

    fn len(&self) -> u32 {
        self.cells.len() as u32
    }

    fn reserve(&mut self, more: usize) {
        self.cells.reserve(more);
        self.before.reserve(more);
        self.opens.reserve(more);
        let needed = self.cells.len() + more;
        if needed > self.heads.len() {
            let size = needed.max(self.heads.len() * 2);
            self.heads = vec![0; size];
            for place in 0..self.cells.len() {
                let at = bucket(size, self.cells[place].id);
                self.before[place] = self.heads[at];
                self.heads[at] = place as u32 + 1;
            }
        }
    }

    fn push(&mut self, cell: Cell) {
        let place = self.len();
        let at = bucket(self.heads.len(), cell.id);
        self.before.push(self.heads[at]);
        self.heads[at] = place + 1;
        if cell.body == Body::Open {
            self.opens.push(place);
        }
        self.cells.push(cell);
    }

    fn has(&self, id: RecordId) -> bool {
        self.held.contains_key(&id)
            || self
                .first(id, |body| matches!(body, Body::Kept(_) | Body::Gone))
                .is_some()
    }

    fn hold(&mut self, id: RecordId, bytes: Bytes) {
        if !self.has(id) {
            self.held.insert(id, bytes);
        }
    }

    fn extend(&mut self, items: &[Item]) {
        let drafts: Vec<Item> = items.to_vec();
        self.reserve(items.len());
        for Item { id, bytes } in drafts {
            let held = self.held.remove(&id);
            let body = match bytes.or(held) {
                Some(bytes) => Body::Kept(bytes),
                None => Body::Open,
            };
            self.push(Cell { id, body });
        }
    }

    fn open_at(&self, id: RecordId) -> Option<u32> {
        self.first(id, |body| *body == Body::Open)
    }

    fn first(&self, id: RecordId, is_of: impl Fn(&Body) -> bool) -> Option<u32> {
        if self.heads.is_empty() {
            return None;
        }
        let mut found = None;
        let mut end = self.heads[bucket(self.heads.len(), id)];
        while end > 0 {
            let place = end - 1;
            let cell = &self.cells[place as usize];
            if cell.id == id && is_of(&cell.body) {
                found = Some(place);
            }
            end = self.before[place as usize];
        }
        found
    }

    fn fill(&mut self, place: u32, bytes: Bytes) {
        if let Some(i) = self.opens.iter().position(|other| *other == place) {
            self.opens.remove(i);
        }
        self.cells[place as usize].body = Body::Kept(bytes);
    }

    fn part(&self, from: u32, to: u32) -> Vec<(u32, Entry)> {
        let mut made = Vec::new();
        for place in from..to {
            let cell = &self.cells[place as usize];
            match &cell.body {
                Body::Kept(bytes) => made.push((place, Entry::Kept(cell.id, bytes.clone()))),
                Body::Noop => made.push((place, Entry::Noop(cell.id))),
                _ => {}
            }
        }
        made
    }

    fn noop_at(&self, id: RecordId) -> Option<u32> {
        self.first(id, |body| *body == Body::Noop)
    }

    fn first_open(&self) -> Option<u32> {
        self.opens.first().copied()
    }

    fn has_open_below(&self, upto: u32) -> bool {
        self.first_open().is_some_and(|place| place < upto)
    }

    fn extend_cells(&mut self, cells: &[Cell]) {
        self.reserve(cells.len());
        for cell in cells {
            self.held.remove(&cell.id);
            self.push(cell.clone());
        }
    }

    fn cells(&self, from: u32, to: u32) -> Vec<Cell> {
        self.cells[from as usize..to as usize].to_vec()
    }
}

#[allow(dead_code)]
struct Marks {
    top: u32,
    bits: Vec<u64>,
}

#[allow(dead_code)]
struct Config {
    view: u32,
    seq: Vec<u32>,
    shards: Vec<Vec<u32>>,
}

#[allow(dead_code)]
enum Msg {
    Append { view: u32, id: RecordId, bytes: Option<Bytes> },
    AppendAck { view: u32, id: RecordId },
    Put { id: RecordId, bytes: Bytes },
    DataAck { view: u32, id: RecordId },
    Rejected { id: RecordId, place: u32 },
    Place { view: u32, from: u32, items: Vec<Item> },
    Placed { view: u32, upto: u32 },
    Copy { view: u32, from: u32, cells: Vec<Cell> },
    Copied { view: u32, upto: u32 },
    Order { view: u32, from: u32, ids: Vec<RecordId> },
    Ordered { view: u32, upto: u32 },
    Stable { view: u32, upto: u32 },
    Probe { view: u32, read: u32 },
    ProbeAck { view: u32, read: u32 },
    TailReady { view: u32, read: u32, tail: u32 },
    Fetch { read: u32, from: u32, to: u32 },
    Part { read: u32, from: u32, end: u32, entries: Vec<(u32, Entry)> },
    Flush { config: Config, from: u32, items: Vec<Item> },
    FlushCopy { view: u32, from: u32, cells: Vec<Cell> },
    Flushed { view: u32 },
    Seal { view: u32 },
    Sealed { view: u32, bound: u32, window: Vec<Marks>, items: Vec<Item> },
    SealedEmpty { view: u32 },
    NewView { config: Config, base: u32, window: Vec<Marks> },
    Started { view: u32 },
    AskView,
    ViewIs { config: Config },
    Claim { stable: u32 },
    Trim { read: u32, floor: u32 },
    TrimAck { read: u32 },
    TrimmedAt { read: u32, floor: u32 },
}

fn data_weight(bytes: &Option<Bytes>) -> u64 {
    bytes.as_ref().map_or(0, |bytes| bytes.len() as u64)
}

fn items_weight(items: &[Item]) -> u64 {
    items.iter().map(|item| 16 + data_weight(&item.bytes)).sum()
}

fn cells_weight(cells: &[Cell]) -> u64 {
    let weight = |cell: &Cell| match &cell.body {
        Body::Kept(bytes) => 16 + bytes.len() as u64,
        _ => 16,
    };
    cells.iter().map(weight).sum()
}

fn entries_weight(entries: &[(u32, Entry)]) -> u64 {
    let weight = |(_, entry): &(u32, Entry)| match entry {
        Entry::Kept(_, bytes) => 16 + bytes.len() as u64,
        _ => 16,
    };
    entries.iter().map(weight).sum()
}

fn window_weight(window: &[Marks]) -> u64 {
    window.iter().map(|marks| 32 + 8 * marks.bits.len() as u64).sum()
}

impl Msg {
    fn weight(&self) -> u64 {
        let members = match self {
            Msg::Append { bytes, .. } => data_weight(bytes),
            Msg::Put { bytes, .. } => bytes.len() as u64,
            Msg::Place { items, .. } | Msg::Flush { items, .. } => items_weight(items),
            Msg::Copy { cells, .. } | Msg::FlushCopy { cells, .. } => cells_weight(cells),
            Msg::Order { ids, .. } => 16 * ids.len() as u64,
            Msg::Part { entries, .. } => entries_weight(entries),
            Msg::Sealed { window, items, .. } => window_weight(window) + items_weight(items),
            Msg::NewView { window, .. } => window_weight(window),
            _ => 0,
        };
        64 + members
    }
}

#[allow(dead_code)]
struct Envelope {
    from: u32,
    to: u32,
    time: u64,
    msg: Msg,
}

#[allow(dead_code)]
enum Input {
    Take(Envelope),
    Tick,
}

/// Messages with their addressees, so many and of so much weight at most.
struct Outbox {
    sends: Vec<(u32, Msg)>,
    weight: u64,
    room_messages: usize,
    room_weight: u64,
}

#[cold]
fn over() -> ! {
    std::process::exit(1)
}

impl Outbox {
    fn new(room_messages: usize) -> Outbox {
        Outbox {
            sends: Vec::new(),
            weight: 0,
            room_messages,
            room_weight: ROOM,
        }
    }

    fn send(&mut self, to: u32, msg: Msg) {
        let weight = msg.weight();
        if self.sends.len() == self.room_messages || weight > self.room_weight - self.weight {
            over();
        }
        self.sends.push((to, msg));
        self.weight += weight;
    }
}

struct Backup {
    node: u32,
    copied: Option<u32>,
}

#[derive(Clone, Copy)]
struct Job {
    from: u32,
    end: u32,
    asker: u32,
}

/// Nodes by their numbers: clients from 0 on, the controller, sequencing replicas, shard replicas.
#[derive(Clone, Copy)]
struct Shape {
    seq: u32,
    spares: u32,
    shards: u32,
    copies: u32,
    clients: u32,
}

impl Shape {
    fn has_client(&self, number: u32) -> bool {
        number < self.clients
    }

    fn has_node(&self, number: u32) -> bool {
        if self.has_client(number) || number == CONTROLLER {
            return true;
        }
        if FIRST_SEQ <= number && number < FIRST_SEQ + self.seq + self.spares {
            return true;
        }
        FIRST_SHARD <= number
            && number < FIRST_SHARD + MAX_COPIES * self.shards
            && (number - FIRST_SHARD) % MAX_COPIES < self.copies
    }
}

struct ShardNode {
    shape: Shape,
    view: u32,
    primary: bool,
    backups: Vec<Backup>,
    store: ShardStore,
    jobs: Vec<Job>,
}

impl ShardNode {
    fn new(primary: bool) -> ShardNode {
        let nodes: &[u32] = if primary { &[265, 266] } else { &[] };
        ShardNode {
            shape: Shape {
                seq: 2,
                spares: 1,
                shards: 1,
                copies: 3,
                clients: 16,
            },
            view: 1,
            primary,
            backups: nodes
                .iter()
                .map(|node| Backup {
                    node: *node,
                    copied: None,
                })
                .collect(),
            store: ShardStore::new(),
            jobs: Vec::new(),
        }
    }

    #[inline(never)]
    fn step(&mut self, input: &Input, out: &mut Outbox) {
        let Input::Take(envelope) = input else {
            return;
        };
        let sender = envelope.from;
        if !self.shape.has_node(sender) {
            return;
        }
        match &envelope.msg {
            Msg::Place { view, from, items } => self.place(sender, *view, *from, items, out),
            Msg::Copy { view, from, cells } => self.copy(sender, *view, *from, cells, out),
            Msg::Copied { view, upto } => self.copied(sender, *view, *upto, out),
            Msg::Stable { view, upto } => self.stable(*view, *upto, out),
            Msg::Put { id, bytes } => self.put(sender, *id, bytes, out),
            Msg::Fetch { read, from, to } => self.fetch(sender, *read, *from, *to, out),
            _ => {}
        }
    }

    fn place(&mut self, sender: u32, view: u32, from: u32, items: &[Item], out: &mut Outbox) {
        if !items.iter().all(|item| self.shape.has_client(item.id.client)) {
            return;
        }
        if !self.primary || view != self.view {
            return;
        }
        if self.jobs.len() < JOBS && from == self.store.len() {
            self.store.extend(items);
            let end = self.store.len();
            let asker = sender;
            self.jobs.push(Job { from, end, asker });
            self.push(self.jobs.len() - 1, out);
        } else if let Some(i) = self.jobs.iter().position(|job| job.from == from) {
            self.push(i, out);
        } else {
            let first = self.jobs.first().map_or(self.store.len(), |job| job.from);
            let upto = from + items.len() as u32;
            if upto <= first {
                out.send(sender, Msg::Placed { view, upto });
            }
        }
    }

    fn copies(&self, job: Job, out: &mut Outbox) {
        if self.store.has_open_below(job.end) {
            return;
        }
        for backup in &self.backups {
            if backup.copied.is_none_or(|copied| copied < job.end) {
                let cells = self.store.cells(job.from, job.end);
                let (view, from) = (self.view, job.from);
                out.send(backup.node, Msg::Copy { view, from, cells });
            }
        }
    }

    fn push(&mut self, i: usize, out: &mut Outbox) {
        self.copies(self.jobs[i], out);
        self.settle(out);
    }

    fn settle(&mut self, out: &mut Outbox) {
        while let Some(job) = self.jobs.first().copied() {
            let has = |backup: &Backup| backup.copied.is_some_and(|copied| copied >= job.end);
            if self.store.has_open_below(job.end) || !self.backups.iter().all(has) {
                return;
            }
            self.jobs.remove(0);
            let (view, upto) = (self.view, job.end);
            out.send(job.asker, Msg::Placed { view, upto });
        }
    }

    fn copy(&mut self, sender: u32, view: u32, from: u32, cells: &[Cell], out: &mut Outbox) {
        if !cells.iter().all(|cell| self.shape.has_client(cell.id.client)) {
            return;
        }
        if self.primary || view != self.view {
            return;
        }
        let upto = from + cells.len() as u32;
        if from == self.store.len() {
            self.store.extend_cells(cells);
        } else if upto > self.store.len() {
            return;
        }
        out.send(sender, Msg::Copied { view, upto });
    }

    fn copied(&mut self, sender: u32, view: u32, upto: u32, out: &mut Outbox) {
        if !self.primary || view != self.view || upto > self.store.len() {
            return;
        }
        let Some(backup) = self.backups.iter_mut().find(|it| it.node == sender) else {
            return;
        };
        backup.copied = Some(backup.copied.map_or(upto, |copied| copied.max(upto)));
        self.settle(out);
    }

    fn stable(&mut self, view: u32, upto: u32, out: &mut Outbox) {
        if view != self.view || upto <= self.store.stable || upto > self.store.len() {
            return;
        }
        if self.store.has_open_below(upto) {
            return;
        }
        self.store.stable = upto;
        out.send(296, Msg::Claim { stable: upto });
    }

    fn put(&mut self, sender: u32, id: RecordId, bytes: &Bytes, out: &mut Outbox) {
        if !self.shape.has_client(id.client) {
            return;
        }
        let view = self.view;
        if let Some(place) = self.store.noop_at(id) {
            if place < self.store.stable {
                out.send(sender, Msg::Rejected { id, place });
            } else {
                self.store.hold(id, bytes.clone());
            }
            return;
        }
        out.send(sender, Msg::DataAck { view, id });
        match self.store.open_at(id) {
            Some(place) => {
                self.store.fill(place, bytes.clone());
                for job in self.jobs.clone() {
                    if place < job.end {
                        self.copies(job, out);
                        self.settle(out);
                    }
                }
            }
            None => self.store.hold(id, bytes.clone()),
        }
    }

    fn fetch(&mut self, sender: u32, read: u32, from: u32, to: u32, out: &mut Outbox) {
        let end = to.min(self.store.stable);
        let entries = self.store.part(from, end);
        let part = Msg::Part {
            read,
            from,
            end,
            entries,
        };
        out.send(sender, part);
    }
}

struct Replicas {
    primary: ShardNode,
    first: ShardNode,
    second: ShardNode,
    sum: u64,
}

fn noted(sum: u64, msg: &Msg) -> u64 {
    let told = match msg {
        Msg::Placed { upto, .. } => u64::from(*upto),
        Msg::Claim { stable } => u64::from(*stable),
        Msg::DataAck { view, .. } => u64::from(*view),
        Msg::Part { end, entries, .. } => u64::from(*end) + entries.len() as u64,
        _ => 7,
    };
    sum.wrapping_mul(31).wrapping_add(told)
}

fn feed(node: &mut ShardNode, from: u32, to: u32, msg: Msg, out: &mut Outbox) {
    let envelope = Envelope {
        from,
        to,
        time: 0,
        msg,
    };
    node.step(&Input::Take(envelope), out);
}

impl Replicas {
    fn new() -> Replicas {
        Replicas {
            primary: ShardNode::new(true),
            first: ShardNode::new(false),
            second: ShardNode::new(false),
            sum: 0,
        }
    }

    fn take_answer(&mut self, from: u32, msg: Msg) {
        let mut out = Outbox::new(16);
        feed(&mut self.primary, from, PRIMARY, msg, &mut out);
        for (_, msg) in &out.sends {
            self.sum = noted(self.sum, msg);
        }
    }

    fn deliver(&mut self, to: u32, msg: Msg) {
        let mut answers = Outbox::new(4);
        match to {
            265 => feed(&mut self.first, PRIMARY, to, msg, &mut answers),
            266 => feed(&mut self.second, PRIMARY, to, msg, &mut answers),
            _ => self.sum = noted(self.sum, &msg),
        }
        if let Some((_, answer)) = answers.sends.pop() {
            self.take_answer(to, answer);
        }
    }

    fn serve(&mut self, from: u32, msg: Msg) {
        let mut out = Outbox::new(64);
        feed(&mut self.primary, from, PRIMARY, msg, &mut out);
        while let Some((to, msg)) = out.sends.pop() {
            self.deliver(to, msg);
        }
    }

    fn place_batch(&mut self, whole: bool, from: u32) {
        let items = batch(from + 1, whole);
        self.serve(
            LEADER,
            Msg::Place {
                view: 1,
                from,
                items,
            },
        );
    }

    fn put_batch(&mut self, from: u32) {
        for i in 0..BATCH {
            let id = RecordId {
                client: i % 16,
                number: from + i + 1,
            };
            let bytes = Bytes::from(&b"12345678"[..]);
            self.serve(id.client, Msg::Put { id, bytes });
        }
    }
}

fn batch(first: u32, whole: bool) -> Vec<Item> {
    (0..BATCH)
        .map(|i| Item {
            id: RecordId {
                client: i % 16,
                number: first + i,
            },
            bytes: whole.then(|| Bytes::from(&b"12345678"[..])),
        })
        .collect()
}

fn round(mode: &str) -> u64 {
    let mut replicas = Replicas::new();
    match mode {
        "place" => (0..BATCHES).for_each(|i| replicas.place_batch(true, BATCH * i)),
        "before" => {
            (0..BATCHES).for_each(|i| replicas.put_batch(BATCH * i));
            (0..BATCHES).for_each(|i| replicas.place_batch(false, BATCH * i));
        }
        "behind" => (0..BATCHES).for_each(|i| {
            replicas.place_batch(false, BATCH * i);
            replicas.put_batch(BATCH * i);
        }),
        _ => {}
    }
    replicas.sum
}

fn fetched(rounds: u32) -> u64 {
    let mut replicas = Replicas::new();
    (0..BATCHES).for_each(|i| replicas.place_batch(true, BATCH * i));
    let upto = BATCH * BATCHES;
    replicas.serve(LEADER, Msg::Stable { view: 1, upto });
    for _ in 0..rounds {
        for i in 0..upto / WIDTH {
            let (from, to) = (WIDTH * i, WIDTH * (i + 1));
            replicas.serve(0, Msg::Fetch { read: 1, from, to });
        }
    }
    replicas.sum
}

fn main() {
    let mut arguments = std::env::args().skip(1);
    if let (Some(mode), Some(rounds)) = (arguments.next(), arguments.next()) {
        let rounds = rounds.parse().unwrap_or(0);
        let sum = match mode.as_str() {
            "fetch" => fetched(rounds),
            _ => (0..rounds).fold(0u64, |sum, _| sum.wrapping_add(round(&mode))),
        };
        println!("{sum}");
    }
}
