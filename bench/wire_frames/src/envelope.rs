//! Envelopes, and whether one is within the limits of a frame.

#[derive(Clone, Copy, PartialEq, Eq)]
pub enum Edition {
    One,
    Two,
}

impl Edition {
    pub fn record_limit(self) -> usize {
        match self {
            Edition::One => 4_096,
            Edition::Two => 65_536,
        }
    }

    pub fn words(self) -> usize {
        match self {
            Edition::One => 4,
            Edition::Two => 64,
        }
    }
}

#[derive(Clone, Copy)]
pub struct RecordId {
    pub client: u32,
    pub number: u32,
}

pub struct Item {
    pub id: RecordId,
    pub bytes: Option<Vec<u8>>,
}

pub enum Body {
    Elsewhere,
    Kept(Vec<u8>),
    Noop,
    #[allow(dead_code)]
    Open,
    #[allow(dead_code)]
    Gone,
}

pub struct Cell {
    pub id: RecordId,
    pub body: Body,
}

pub enum Entry {
    Kept(RecordId, Vec<u8>),
    Noop(RecordId),
    #[allow(dead_code)]
    Gone(RecordId),
}

pub struct Marks {
    pub top: u32,
    pub bits: Vec<u64>,
}

pub struct Config {
    pub view: u32,
    pub seq: Vec<u32>,
    pub shards: Vec<Vec<u32>>,
}

pub enum Msg {
    Append { view: u32, id: RecordId, bytes: Option<Vec<u8>> },
    AppendAck { view: u32, id: RecordId },
    Put { id: RecordId, bytes: Vec<u8> },
    DataAck { view: u32, id: RecordId },
    Rejected { id: RecordId, place: u32 },
    Place { view: u32, from: u32, items: Vec<Item> },
    Placed { view: u32, upto: u32 },
    Copy { view: u32, from: u32, cells: Vec<Cell> },
    Copied { view: u32, upto: u32 },
    Order { view: u32, from: u32, ids: Vec<RecordId> },
    Ordered { view: u32, upto: u32 },
    Stable { view: u32, upto: u32 },
    Probe { view: u32, read: u32 },
    ProbeAck { view: u32, read: u32 },
    TailReady { view: u32, read: u32, tail: u32 },
    Fetch { read: u32, from: u32, to: u32 },
    Part { read: u32, from: u32, end: u32, entries: Vec<(u32, Entry)> },
    Flush { config: Config, from: u32, items: Vec<Item> },
    FlushCopy { view: u32, from: u32, cells: Vec<Cell> },
    Flushed { view: u32 },
    Seal { view: u32 },
    Sealed { view: u32, bound: u32, window: Vec<Marks>, items: Vec<Item> },
    SealedEmpty { view: u32 },
    NewView { config: Config, base: u32, window: Vec<Marks> },
    Started { view: u32 },
    AskView,
    ViewIs { config: Config },
    Claim { stable: u32 },
    Trim { read: u32, floor: u32 },
    TrimAck { read: u32 },
    TrimmedAt { read: u32, floor: u32 },
}

pub struct Envelope {
    pub from: u32,
    pub to: u32,
    pub time: u64,
    pub msg: Msg,
}

fn id_fits(id: RecordId) -> bool {
    id.client <= 255 && id.number >= 1
}

fn item_fits(edition: Edition, item: &Item) -> bool {
    id_fits(item.id) && optional_fits(edition, &item.bytes)
}

fn bytes_fit(edition: Edition, bytes: &[u8]) -> bool {
    bytes.len() <= edition.record_limit()
}

fn optional_fits(edition: Edition, bytes: &Option<Vec<u8>>) -> bool {
    bytes.as_ref().is_none_or(|bytes| bytes_fit(edition, bytes))
}

fn items_fit(edition: Edition, limit: usize, items: &[Item]) -> bool {
    items.len() <= limit && items.iter().all(|item| item_fits(edition, item))
}

fn cell_fits(edition: Edition, cell: &Cell) -> bool {
    id_fits(cell.id)
        && match &cell.body {
            Body::Elsewhere | Body::Noop => true,
            Body::Kept(bytes) => bytes_fit(edition, bytes),
            Body::Open | Body::Gone => false,
        }
}

fn cells_fit(edition: Edition, limit: usize, cells: &[Cell]) -> bool {
    cells.len() <= limit && cells.iter().all(|cell| cell_fits(edition, cell))
}

fn entry_fits(edition: Edition, entry: &Entry) -> bool {
    match entry {
        Entry::Kept(id, bytes) => id_fits(*id) && bytes_fit(edition, bytes),
        Entry::Noop(id) => id_fits(*id),
        Entry::Gone(_) => false,
    }
}

fn nodes_fit(limit: usize, nodes: &[u32]) -> bool {
    !nodes.is_empty() && nodes.len() <= limit && nodes.iter().all(|node| *node <= 295)
}

fn config_fits(config: &Config) -> bool {
    config.view >= 1
        && nodes_fit(7, &config.seq)
        && !config.shards.is_empty()
        && config.shards.len() <= 8
        && config.shards.iter().all(|nodes| nodes_fit(4, nodes))
}

/// No bit of the words from bit `top` on is set.
pub fn words_end(top: u32, words: &[u64]) -> bool {
    let mut left = top;
    for word in words {
        if left < 64 && *word >= 1u64 << left {
            return false;
        }
        left = left.saturating_sub(64);
    }
    true
}

fn marks_fit(edition: Edition, marks: &Marks) -> bool {
    marks.bits.len() == edition.words()
        && (marks.top == 0 || marks.bits[0] % 2 == 1)
        && words_end(marks.top, &marks.bits)
}

fn window_fits(edition: Edition, window: &[Marks]) -> bool {
    !window.is_empty()
        && window.len() <= 256
        && window.iter().all(|marks| marks_fit(edition, marks))
}

fn message_fits(edition: Edition, msg: &Msg) -> bool {
    match msg {
        Msg::Append { view, id, bytes } => *view >= 1 && id_fits(*id) && optional_fits(edition, bytes),
        Msg::AppendAck { view, id } | Msg::DataAck { view, id } => *view >= 1 && id_fits(*id),
        Msg::Put { id, bytes } => id_fits(*id) && bytes_fit(edition, bytes),
        Msg::Rejected { id, .. } => id_fits(*id),
        Msg::Place { view, items, .. } => *view >= 1 && items_fit(edition, 64, items),
        Msg::Copy { view, cells, .. } => *view >= 1 && cells_fit(edition, 64, cells),
        Msg::Order { view, ids, .. } => {
            *view >= 1 && ids.len() <= 64 && ids.iter().all(|id| id_fits(*id))
        }
        Msg::Placed { view, .. }
        | Msg::Copied { view, .. }
        | Msg::Ordered { view, .. }
        | Msg::Stable { view, .. }
        | Msg::Flushed { view }
        | Msg::Seal { view }
        | Msg::SealedEmpty { view }
        | Msg::Started { view } => *view >= 1,
        Msg::Probe { view, read } | Msg::ProbeAck { view, read } | Msg::TailReady { view, read, .. } => {
            *view >= 1 && *read >= 1
        }
        Msg::Fetch { read, .. } => *read >= 1,
        Msg::Part { read, entries, .. } => {
            *read >= 1
                && entries.len() <= 256
                && entries.iter().all(|(_, entry)| entry_fits(edition, entry))
        }
        Msg::Flush { config, items, .. } => config_fits(config) && items_fit(edition, 4_096, items),
        Msg::FlushCopy { view, cells, .. } => *view >= 1 && cells_fit(edition, 4_096, cells),
        Msg::Sealed { view, window, items, .. } => {
            *view >= 1 && window_fits(edition, window) && items_fit(edition, 4_096, items)
        }
        Msg::NewView { config, window, .. } => config_fits(config) && window_fits(edition, window),
        Msg::AskView | Msg::Claim { .. } => true,
        Msg::ViewIs { config } => config_fits(config),
        Msg::Trim { read, .. } | Msg::TrimmedAt { read, .. } | Msg::TrimAck { read } => {
            edition == Edition::Two && *read >= 1
        }
    }
}

pub fn fits(edition: Edition, env: &Envelope) -> bool {
    env.from <= 295 && env.to <= 296 && env.time < 1 << 40 && message_fits(edition, &env.msg)
}
