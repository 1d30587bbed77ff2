//! The work of `crates/shard_journal_bench`.

use std::sync::Arc;

const BATCH: u32 = 64;
const BATCHES: u32 = 1_024;
const KEEPS: u32 = 256;
const DATA: [u8; 100] = [7; 100];
const BLOCK_LIMIT: u32 = 256;
const FILE_LIMIT: usize = 268_435_456;

#[derive(Clone, Copy)]
struct RecordId {
    client: u32,
    number: u32,
}

struct Cell {
    id: RecordId,
    bytes: Arc<[u8]>,
}

struct Entry {
    place: u32,
    #[allow(dead_code)]
    id: RecordId,
    bytes: Option<Arc<[u8]>>,
}

/// A change of the file, as the record of the disk has it.
#[allow(dead_code)]
enum Change {
    Write(u32, u32),
    Cut(u32),
    Sync,
}

#[derive(Default)]
struct MemDisk {
    past: Vec<Change>,
    bytes: Vec<u8>,
    file: Vec<u8>,
    calls: u64,
}

impl MemDisk {
    fn size(&mut self) -> u32 {
        self.calls += 1;
        self.file.len() as u32
    }

    fn read(&mut self, at: u32, buf: &mut [u8]) {
        self.calls += 1;
        let at = at as usize;
        buf.copy_from_slice(&self.file[at..at + buf.len()]);
    }

    fn write_over(file: &mut Vec<u8>, at: usize, bytes: &[u8]) {
        let end = at + bytes.len();
        if end > file.len() {
            file.resize(end, 0);
        }
        file[at..end].copy_from_slice(bytes);
    }

    fn write_at(&mut self, at: u32, bytes: &[u8]) {
        self.calls += 1;
        MemDisk::write_over(&mut self.file, at as usize, bytes);
        self.bytes.extend_from_slice(bytes);
        self.past.push(Change::Write(at, bytes.len() as u32));
    }

    fn cut(&mut self, size: u32) {
        self.calls += 1;
        self.file.truncate(size as usize);
        self.past.push(Change::Cut(size));
    }

    fn sync(&mut self) {
        self.calls += 1;
        self.past.push(Change::Sync);
    }

    fn power_off(&mut self) {
        while let Some(last) = self.past.pop() {
            match last {
                Change::Sync => {
                    self.past.push(Change::Sync);
                    break;
                }
                Change::Write(_, count) => self.bytes.truncate(self.bytes.len() - count as usize),
                Change::Cut(_) => {}
            }
        }
        self.file.clear();
        let mut rest = self.bytes.as_slice();
        for change in &self.past {
            match change {
                Change::Write(at, count) => {
                    let (front, behind) = rest.split_at(*count as usize);
                    MemDisk::write_over(&mut self.file, *at as usize, front);
                    rest = behind;
                }
                Change::Cut(size) => self.file.truncate(*size as usize),
                Change::Sync => {}
            }
        }
    }
}

struct Journal {
    disk: MemDisk,
    kept: u32,
    end: u32,
    buffer: Vec<u8>,
}

fn word(bytes: &[u8]) -> u32 {
    u32::from_be_bytes([bytes[0], bytes[1], bytes[2], bytes[3]])
}

/// The entries of a body, if it is one.
fn read_entries(kept: u32, body: &[u8]) -> Option<(u32, Vec<Entry>)> {
    if body.len() < 10 {
        return None;
    }
    let (from, to) = (word(body), word(&body[4..]));
    let count = usize::from(u16::from_be_bytes([body[8], body[9]]));
    if from != kept || from >= to || to - from > BLOCK_LIMIT || count > 256 {
        return None;
    }
    let mut rest = &body[10..];
    let mut entries = Vec::with_capacity(count);
    let mut next = from;
    for _ in 0..count {
        if rest.len() < 10 {
            return None;
        }
        let place = word(rest);
        let id = RecordId {
            client: u32::from(rest[4]),
            number: word(&rest[5..]),
        };
        if place < next || place >= to || id.number == 0 {
            return None;
        }
        next = place + 1;
        let bytes = match rest[9] {
            1 => {
                if rest.len() < 12 {
                    return None;
                }
                let len = usize::from(u16::from_be_bytes([rest[10], rest[11]]));
                if len > 4_096 || rest.len() < 12 + len {
                    return None;
                }
                let bytes = Arc::from(&rest[12..12 + len]);
                rest = &rest[12 + len..];
                Some(bytes)
            }
            2 => {
                rest = &rest[10..];
                None
            }
            _ => return None,
        };
        entries.push(Entry { place, id, bytes });
    }
    if rest.is_empty() { Some((to, entries)) } else { None }
}

impl Journal {
    #[inline(never)]
    fn open(mut disk: MemDisk) -> Result<(Journal, Vec<Entry>), u32> {
        disk.sync();
        let size = disk.size();
        let mut entries = Vec::new();
        let (mut kept, mut end) = (0, 0);
        if size < 2 {
            disk.cut(0);
            disk.write_at(0, &[0]);
            disk.sync();
        } else {
            let mut body = Vec::new();
            let mut flag = [0u8];
            disk.read(0, &mut flag);
            while flag[0] == 1 {
                if size - end <= 5 {
                    return Err(end);
                }
                let mut length = [0u8; 4];
                disk.read(end + 1, &mut length);
                let len = u32::from_be_bytes(length);
                if len >= size - end - 5 {
                    return Err(end);
                }
                body.resize(len as usize + 1, 0);
                disk.read(end + 5, &mut body);
                flag[0] = body[len as usize];
                let Some((to, more)) = read_entries(kept, &body[..len as usize]) else {
                    return Err(end);
                };
                entries.extend(more);
                kept = to;
                end += 5 + len;
            }
        }
        let journal = Journal {
            disk,
            kept,
            end,
            buffer: Vec::new(),
        };
        Ok((journal, entries))
    }

    #[inline(never)]
    fn keep(&mut self, store: &[Cell]) -> u32 {
        let to = (store.len() as u32).min(self.kept + BLOCK_LIMIT);
        if to == self.kept {
            return to;
        }
        let out = &mut self.buffer;
        out.clear();
        out.extend_from_slice(&[0; 4]);
        out.extend_from_slice(&self.kept.to_be_bytes());
        out.extend_from_slice(&to.to_be_bytes());
        out.extend_from_slice(&((to - self.kept) as u16).to_be_bytes());
        for place in self.kept..to {
            let cell = &store[place as usize];
            out.extend_from_slice(&place.to_be_bytes());
            out.push(cell.id.client as u8);
            out.extend_from_slice(&cell.id.number.to_be_bytes());
            out.push(1);
            out.extend_from_slice(&(cell.bytes.len() as u16).to_be_bytes());
            out.extend_from_slice(&cell.bytes);
        }
        let len = (out.len() - 4) as u32;
        out[..4].copy_from_slice(&len.to_be_bytes());
        out.push(0);
        if self.end as usize + 1 + out.len() > FILE_LIMIT {
            return self.kept;
        }
        self.disk.write_at(self.end + 1, &self.buffer);
        self.disk.sync();
        self.disk.write_at(self.end, &[1]);
        self.disk.sync();
        self.end += self.buffer.len() as u32;
        self.kept = to;
        to
    }
}

fn full_store() -> Vec<Cell> {
    let mut store = Vec::new();
    for i in 0..BATCHES {
        for j in 0..BATCH {
            store.push(Cell {
                id: RecordId {
                    client: j % 16,
                    number: 1 + BATCH * i + j,
                },
                bytes: Arc::from(DATA.as_slice()),
            });
        }
    }
    store
}

fn kept(store: &[Cell]) -> Journal {
    let Ok((mut journal, _)) = Journal::open(MemDisk::default()) else {
        std::process::exit(1);
    };
    for _ in 0..KEEPS {
        journal.keep(store);
    }
    journal
}

fn sum_of(entries: &[Entry]) -> u64 {
    let mut sum = 0u64;
    for entry in entries {
        sum = sum.wrapping_mul(31).wrapping_add(u64::from(entry.place));
        if let Some(byte) = entry.bytes.as_ref().and_then(|bytes| bytes.first()) {
            sum = sum.wrapping_add(u64::from(*byte));
        }
    }
    sum
}

fn main() {
    let words: Vec<String> = std::env::args().collect();
    if words.len() < 3 {
        return;
    }
    let rounds = words[2].parse::<u32>().unwrap_or(0);
    let store = full_store();
    let mut sum = 0u64;
    if words[1] == "open" {
        let mut journal = kept(&store);
        for _ in 0..rounds {
            let mut disk = journal.disk;
            disk.power_off();
            let Ok((again, entries)) = Journal::open(disk) else {
                std::process::exit(1);
            };
            sum = sum.wrapping_add(sum_of(&entries));
            journal = again;
        }
    } else {
        for _ in 0..rounds {
            sum = sum.wrapping_add(kept(&store).disk.file.len() as u64);
        }
    }
    println!("{sum}");
}
