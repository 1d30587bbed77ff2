//! The work of `crates/shard_store_bench`.

use std::collections::HashMap;

const BATCH: u32 = 64;
const BATCHES: u32 = 1_024;

#[derive(Clone, Copy, PartialEq, Eq, Hash)]
struct RecordId {
    client: u32,
    number: u32,
}

#[derive(Clone)]
struct Item {
    id: RecordId,
    bytes: Option<Vec<u8>>,
}

#[derive(PartialEq)]
#[allow(dead_code)]
enum Body {
    Elsewhere,
    Kept(Vec<u8>),
    Noop,
    Open,
    Gone,
}

#[allow(dead_code)]
enum Entry {
    Kept(RecordId, Vec<u8>),
    Noop(RecordId),
}

struct Cell {
    id: RecordId,
    body: Body,
}

fn bucket(size: usize, id: RecordId) -> usize {
    ((u64::from(id.client) * 40_503 + u64::from(id.number)) % size as u64) as usize
}

struct ShardStore {
    whole: bool,
    cells: Vec<Cell>,
    heads: Vec<u32>,
    before: Vec<u32>,
    opens: Vec<u32>,
    held: HashMap<RecordId, Vec<u8>>,
    stable: u32,
}

impl ShardStore {
    fn new(whole: bool) -> ShardStore {
        ShardStore {
            whole,
            cells: Vec::new(),
            heads: Vec::new(),
            before: Vec::new(),
            opens: Vec::new(),
            held: HashMap::new(),
            stable: 0,
        }
    }

    fn len(&self) -> u32 {
        self.cells.len() as u32
    }

    fn reserve(&mut self, more: usize) {
        self.cells.reserve(more);
        self.before.reserve(more);
        self.opens.reserve(more);
        let needed = self.cells.len() + more;
        if needed > self.heads.len() {
            let size = needed.max(self.heads.len() * 2);
            self.heads = vec![0; size];
            for place in 0..self.cells.len() {
                let at = bucket(size, self.cells[place].id);
                self.before[place] = self.heads[at];
                self.heads[at] = place as u32 + 1;
            }
        }
    }

    fn push(&mut self, cell: Cell) {
        let place = self.len();
        let at = bucket(self.heads.len(), cell.id);
        self.before.push(self.heads[at]);
        self.heads[at] = place + 1;
        if cell.body == Body::Open {
            self.opens.push(place);
        }
        self.cells.push(cell);
    }

    fn pop(&mut self) -> Option<Cell> {
        let cell = self.cells.pop()?;
        let end = self.before.pop()?;
        let at = bucket(self.heads.len(), cell.id);
        self.heads[at] = end;
        if cell.body == Body::Open {
            self.opens.pop();
        }
        Some(cell)
    }

    fn has(&self, id: RecordId) -> bool {
        self.held.contains_key(&id)
            || self
                .first(id, |body| matches!(body, Body::Kept(_) | Body::Gone))
                .is_some()
    }

    #[inline(never)]
    fn hold(&mut self, id: RecordId, bytes: Vec<u8>) {
        if !self.has(id) {
            self.held.insert(id, bytes);
        }
    }

    #[inline(never)]
    fn extend(&mut self, items: &[Item]) {
        let drafts: Vec<Item> = items.to_vec();
        self.reserve(items.len());
        for Item { id, bytes } in drafts {
            let held = self.held.remove(&id);
            let body = match bytes.or(held) {
                Some(bytes) => Body::Kept(bytes),
                None => Body::Open,
            };
            self.push(Cell { id, body });
        }
    }

    #[inline(never)]
    fn open_at(&self, id: RecordId) -> Option<u32> {
        self.first(id, |body| *body == Body::Open)
    }

    fn first(&self, id: RecordId, is_of: impl Fn(&Body) -> bool) -> Option<u32> {
        if self.heads.is_empty() {
            return None;
        }
        let mut found = None;
        let mut end = self.heads[bucket(self.heads.len(), id)];
        while end > 0 {
            let place = end - 1;
            let cell = &self.cells[place as usize];
            if cell.id == id && is_of(&cell.body) {
                found = Some(place);
            }
            end = self.before[place as usize];
        }
        found
    }

    fn fill(&mut self, place: u32, bytes: Vec<u8>) {
        if let Some(i) = self.opens.iter().position(|other| *other == place) {
            self.opens.remove(i);
        }
        self.cells[place as usize].body = Body::Kept(bytes);
    }

    #[inline(never)]
    fn part(&self, from: u32, to: u32) -> Vec<(u32, Entry)> {
        let mut made = Vec::new();
        for place in from..to {
            let cell = &self.cells[place as usize];
            match &cell.body {
                Body::Kept(bytes) => made.push((place, Entry::Kept(cell.id, bytes.clone()))),
                Body::Noop => made.push((place, Entry::Noop(cell.id))),
                _ => {}
            }
        }
        made
    }

    #[inline(never)]
    fn cut(&mut self, from: u32) {
        let mut tail = Vec::new();
        while self.len() > from {
            let cell = self.pop();
            if !self.whole {
                tail.extend(cell);
            }
        }
        for cell in tail.into_iter().rev() {
            if let Body::Kept(bytes) = cell.body {
                self.hold(cell.id, bytes);
            }
        }
    }
}

fn batch(first: u32, whole: bool) -> Vec<Item> {
    let mut items = Vec::new();
    for i in 0..BATCH {
        items.push(Item {
            id: RecordId {
                client: i % 16,
                number: first + i,
            },
            bytes: whole.then(|| b"12345678".to_vec()),
        });
    }
    items
}

fn full_store() -> ShardStore {
    let mut store = ShardStore::new(true);
    for i in 0..BATCHES {
        store.extend(&batch(1 + BATCH * i, true));
    }
    store
}

fn filled_store() -> ShardStore {
    let mut store = ShardStore::new(false);
    for i in 0..BATCHES {
        let first = 1 + BATCH * i;
        store.extend(&batch(first, false));
        for k in 0..BATCH {
            let id = RecordId {
                client: k % 16,
                number: first + k,
            };
            let bytes = b"12345678".to_vec();
            if let Some(place) = store.open_at(id) {
                store.fill(place, bytes);
            }
        }
    }
    store
}

fn held_store() -> ShardStore {
    let mut store = ShardStore::new(false);
    for i in 0..BATCHES {
        for k in 0..BATCH {
            let number = 1 + BATCH * i + k;
            let id = RecordId {
                client: k % 16,
                number,
            };
            store.hold(id, number.to_le_bytes().to_vec());
        }
    }
    for i in 0..BATCHES {
        store.extend(&batch(1 + BATCH * i, false));
    }
    store
}

fn kept_sum(store: &ShardStore) -> u64 {
    let mut sum = 0u64;
    for cell in &store.cells {
        if let Body::Kept(bytes) = &cell.body {
            for byte in bytes {
                sum = sum.wrapping_mul(31).wrapping_add(u64::from(*byte));
            }
        }
    }
    sum
}

fn round(mode: &str) -> u64 {
    match mode {
        "extend" => u64::from(full_store().len()),
        "fill" => u64::from(filled_store().len()),
        "cut" => {
            let mut store = full_store();
            for _ in 0..BATCHES {
                let from = store.len().saturating_sub(BATCH);
                if store.stable <= from {
                    store.cut(from);
                }
            }
            u64::from(store.len())
        }
        "held" => kept_sum(&held_store()),
        _ => 0,
    }
}

fn read_rounds(rounds: u32) -> u64 {
    let mut store = full_store();
    store.stable = store.len();
    let mut sum = 0u64;
    for _ in 0..rounds {
        for i in 0..BATCHES / 4 {
            let part = store.part(BATCH * 4 * i, BATCH * 4 * (i + 1));
            sum = sum.wrapping_add(part.len() as u64);
        }
    }
    sum
}

fn main() {
    let mut arguments = std::env::args().skip(1);
    if let (Some(mode), Some(rounds)) = (arguments.next(), arguments.next()) {
        let rounds = rounds.parse().unwrap_or(0);
        let sum = match mode.as_str() {
            "part" => read_rounds(rounds),
            _ => (0..rounds).fold(0u64, |sum, _| sum.wrapping_add(round(&mode))),
        };
        println!("{sum}");
    }
}
