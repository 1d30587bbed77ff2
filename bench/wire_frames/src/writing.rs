//! The frame of an envelope, in one piece of memory of exactly its length.

use crate::envelope::{Body, Cell, Config, Edition, Entry, Envelope, Item, Marks, Msg, RecordId};

fn bytes_len(edition: Edition, bytes: &[u8]) -> usize {
    match edition {
        Edition::One => 2 + bytes.len(),
        Edition::Two => 4 + bytes.len(),
    }
}

fn optional_len(edition: Edition, bytes: &Option<Vec<u8>>) -> usize {
    1 + bytes.as_ref().map_or(0, |bytes| bytes_len(edition, bytes))
}

fn items_len(edition: Edition, items: &[Item]) -> usize {
    2 + items.iter().map(|item| 5 + optional_len(edition, &item.bytes)).sum::<usize>()
}

fn body_len(edition: Edition, body: &Body) -> usize {
    match body {
        Body::Kept(bytes) => 1 + bytes_len(edition, bytes),
        _ => 1,
    }
}

fn cells_len(edition: Edition, cells: &[Cell]) -> usize {
    2 + cells.iter().map(|cell| 5 + body_len(edition, &cell.body)).sum::<usize>()
}

fn entries_len(edition: Edition, entries: &[(u32, Entry)]) -> usize {
    2 + entries
        .iter()
        .map(|(_, entry)| match entry {
            Entry::Kept(_, bytes) => 10 + bytes_len(edition, bytes),
            _ => 10,
        })
        .sum::<usize>()
}

fn nodes_len(nodes: &[u32]) -> usize {
    1 + 2 * nodes.len()
}

fn config_len(config: &Config) -> usize {
    5 + nodes_len(&config.seq) + config.shards.iter().map(|nodes| nodes_len(nodes)).sum::<usize>()
}

fn window_len(window: &[Marks]) -> usize {
    2 + window.iter().map(|marks| 4 + 8 * marks.bits.len()).sum::<usize>()
}

fn fields_len(edition: Edition, msg: &Msg) -> usize {
    match msg {
        Msg::Append { bytes, .. } => 9 + optional_len(edition, bytes),
        Msg::Put { bytes, .. } => 5 + bytes_len(edition, bytes),
        Msg::Place { items, .. } => 8 + items_len(edition, items),
        Msg::Copy { cells, .. } | Msg::FlushCopy { cells, .. } => 8 + cells_len(edition, cells),
        Msg::Order { ids, .. } => 10 + 5 * ids.len(),
        Msg::Part { entries, .. } => 12 + entries_len(edition, entries),
        Msg::Flush { config, items, .. } => 4 + config_len(config) + items_len(edition, items),
        Msg::Sealed { window, items, .. } => 8 + window_len(window) + items_len(edition, items),
        Msg::NewView { config, window, .. } => 4 + config_len(config) + window_len(window),
        Msg::ViewIs { config } => config_len(config),
        Msg::TailReady { .. } | Msg::Fetch { .. } => 12,
        Msg::AppendAck { .. } | Msg::DataAck { .. } | Msg::Rejected { .. } => 9,
        Msg::Placed { .. }
        | Msg::Copied { .. }
        | Msg::Ordered { .. }
        | Msg::Stable { .. }
        | Msg::Probe { .. }
        | Msg::ProbeAck { .. }
        | Msg::Trim { .. }
        | Msg::TrimmedAt { .. } => 8,
        Msg::Flushed { .. }
        | Msg::Seal { .. }
        | Msg::SealedEmpty { .. }
        | Msg::Started { .. }
        | Msg::Claim { .. }
        | Msg::TrimAck { .. } => 4,
        Msg::AskView => 0,
    }
}

fn kind_of(msg: &Msg) -> u8 {
    match msg {
        Msg::Append { .. } => 1,
        Msg::AppendAck { .. } => 2,
        Msg::Put { .. } => 3,
        Msg::DataAck { .. } => 4,
        Msg::Rejected { .. } => 5,
        Msg::Place { .. } => 6,
        Msg::Placed { .. } => 7,
        Msg::Copy { .. } => 8,
        Msg::Copied { .. } => 9,
        Msg::Order { .. } => 10,
        Msg::Ordered { .. } => 11,
        Msg::Stable { .. } => 12,
        Msg::Probe { .. } => 13,
        Msg::ProbeAck { .. } => 14,
        Msg::TailReady { .. } => 15,
        Msg::Fetch { .. } => 16,
        Msg::Part { .. } => 17,
        Msg::Flush { .. } => 18,
        Msg::FlushCopy { .. } => 19,
        Msg::Flushed { .. } => 20,
        Msg::Seal { .. } => 21,
        Msg::Sealed { .. } => 22,
        Msg::SealedEmpty { .. } => 23,
        Msg::NewView { .. } => 24,
        Msg::Started { .. } => 25,
        Msg::AskView => 26,
        Msg::ViewIs { .. } => 27,
        Msg::Claim { .. } => 28,
        Msg::Trim { .. } => 29,
        Msg::TrimAck { .. } => 30,
        Msg::TrimmedAt { .. } => 31,
    }
}

struct Writer {
    edition: Edition,
    out: Vec<u8>,
}

impl Writer {
    fn byte(&mut self, byte: u8) {
        self.out.push(byte);
    }

    fn two(&mut self, number: u16) {
        self.out.extend_from_slice(&number.to_be_bytes());
    }

    fn four(&mut self, number: u32) {
        self.out.extend_from_slice(&number.to_be_bytes());
    }

    fn id(&mut self, id: RecordId) {
        self.byte(id.client as u8);
        self.four(id.number);
    }

    fn bytes(&mut self, bytes: &[u8]) {
        match self.edition {
            Edition::One => self.two(bytes.len() as u16),
            Edition::Two => self.four(bytes.len() as u32),
        }
        self.out.extend_from_slice(bytes);
    }

    fn optional(&mut self, bytes: &Option<Vec<u8>>) {
        match bytes {
            None => self.byte(0),
            Some(bytes) => {
                self.byte(1);
                self.bytes(bytes);
            }
        }
    }

    fn items(&mut self, items: &[Item]) {
        self.two(items.len() as u16);
        for item in items {
            self.id(item.id);
            self.optional(&item.bytes);
        }
    }

    fn cells(&mut self, cells: &[Cell]) {
        self.two(cells.len() as u16);
        for cell in cells {
            self.id(cell.id);
            match &cell.body {
                Body::Elsewhere => self.byte(0),
                Body::Kept(bytes) => {
                    self.byte(1);
                    self.bytes(bytes);
                }
                Body::Noop => self.byte(2),
                Body::Open | Body::Gone => {}
            }
        }
    }

    fn ids(&mut self, ids: &[RecordId]) {
        self.two(ids.len() as u16);
        for id in ids {
            self.id(*id);
        }
    }

    fn entries(&mut self, entries: &[(u32, Entry)]) {
        self.two(entries.len() as u16);
        for (place, entry) in entries {
            self.four(*place);
            match entry {
                Entry::Kept(id, bytes) => {
                    self.id(*id);
                    self.byte(1);
                    self.bytes(bytes);
                }
                Entry::Noop(id) => {
                    self.id(*id);
                    self.byte(2);
                }
                Entry::Gone(_) => {}
            }
        }
    }

    fn nodes(&mut self, nodes: &[u32]) {
        self.byte(nodes.len() as u8);
        for node in nodes {
            self.two(*node as u16);
        }
    }

    fn config(&mut self, config: &Config) {
        self.four(config.view);
        self.nodes(&config.seq);
        self.byte(config.shards.len() as u8);
        for nodes in &config.shards {
            self.nodes(nodes);
        }
    }

    fn window(&mut self, window: &[Marks]) {
        self.two(window.len() as u16);
        for marks in window {
            self.four(marks.top);
            for word in &marks.bits {
                self.out.extend_from_slice(&word.to_le_bytes());
            }
        }
    }

    fn fields(&mut self, msg: &Msg) {
        match msg {
            Msg::Append { view, id, bytes } => {
                self.four(*view);
                self.id(*id);
                self.optional(bytes);
            }
            Msg::AppendAck { view, id } | Msg::DataAck { view, id } => {
                self.four(*view);
                self.id(*id);
            }
            Msg::Put { id, bytes } => {
                self.id(*id);
                self.bytes(bytes);
            }
            Msg::Rejected { id, place } => {
                self.id(*id);
                self.four(*place);
            }
            Msg::Place { view, from, items } => {
                self.four(*view);
                self.four(*from);
                self.items(items);
            }
            Msg::Copy { view, from, cells } | Msg::FlushCopy { view, from, cells } => {
                self.four(*view);
                self.four(*from);
                self.cells(cells);
            }
            Msg::Order { view, from, ids } => {
                self.four(*view);
                self.four(*from);
                self.ids(ids);
            }
            Msg::Placed { view, upto }
            | Msg::Copied { view, upto }
            | Msg::Ordered { view, upto }
            | Msg::Stable { view, upto } => {
                self.four(*view);
                self.four(*upto);
            }
            Msg::Probe { view, read } | Msg::ProbeAck { view, read } => {
                self.four(*view);
                self.four(*read);
            }
            Msg::TailReady { view, read, tail } => {
                self.four(*view);
                self.four(*read);
                self.four(*tail);
            }
            Msg::Fetch { read, from, to } => {
                self.four(*read);
                self.four(*from);
                self.four(*to);
            }
            Msg::Part { read, from, end, entries } => {
                self.four(*read);
                self.four(*from);
                self.four(*end);
                self.entries(entries);
            }
            Msg::Flush { config, from, items } => {
                self.config(config);
                self.four(*from);
                self.items(items);
            }
            Msg::Sealed { view, bound, window, items } => {
                self.four(*view);
                self.four(*bound);
                self.window(window);
                self.items(items);
            }
            Msg::NewView { config, base, window } => {
                self.config(config);
                self.four(*base);
                self.window(window);
            }
            Msg::Flushed { view }
            | Msg::Seal { view }
            | Msg::SealedEmpty { view }
            | Msg::Started { view } => self.four(*view),
            Msg::AskView => {}
            Msg::ViewIs { config } => self.config(config),
            Msg::Claim { stable } => self.four(*stable),
            Msg::Trim { read, floor } | Msg::TrimmedAt { read, floor } => {
                self.four(*read);
                self.four(*floor);
            }
            Msg::TrimAck { read } => self.four(*read),
        }
    }
}

#[inline(never)]
pub fn encode(edition: Edition, env: &Envelope) -> Vec<u8> {
    let out = Vec::with_capacity(14 + fields_len(edition, &env.msg));
    let mut writer = Writer { edition, out };
    writer.byte(if edition == Edition::One { 1 } else { 2 });
    writer.byte(kind_of(&env.msg));
    writer.two(env.from as u16);
    writer.two(env.to as u16);
    writer.out.extend_from_slice(&env.time.to_be_bytes());
    writer.fields(&env.msg);
    writer.out
}
