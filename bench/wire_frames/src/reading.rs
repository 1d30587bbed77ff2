//! The envelope of a frame, or the first offence.

use crate::envelope::{Body, Cell, Config, Edition, Entry, Envelope, Item, Marks, Msg, RecordId, words_end};

#[allow(dead_code)]
pub enum FrameError {
    Short,
    Kind(u8),
    Field(usize),
    Over(u32),
    Trailing(usize),
}

struct Reader<'a> {
    edition: Edition,
    size: usize,
    left: &'a [u8],
}

type Taken<T> = Result<T, FrameError>;

impl<'a> Reader<'a> {
    fn part(&mut self, len: usize) -> Taken<&'a [u8]> {
        let (front, rest) = self.left.split_at_checked(len).ok_or(FrameError::Short)?;
        self.left = rest;
        Ok(front)
    }

    fn array<const N: usize>(&mut self) -> Taken<[u8; N]> {
        let (front, rest) = self.left.split_first_chunk::<N>().ok_or(FrameError::Short)?;
        self.left = rest;
        Ok(*front)
    }

    fn byte(&mut self) -> Taken<u8> {
        Ok(self.array::<1>()?[0])
    }

    fn two(&mut self) -> Taken<u16> {
        Ok(u16::from_be_bytes(self.array()?))
    }

    fn four(&mut self) -> Taken<u32> {
        Ok(u32::from_be_bytes(self.array()?))
    }

    fn field(&self, before: &[u8]) -> FrameError {
        FrameError::Field(self.size - before.len())
    }

    fn counted(&mut self) -> Taken<u32> {
        let before = self.left;
        match self.four()? {
            0 => Err(self.field(before)),
            number => Ok(number),
        }
    }

    fn node(&mut self, limit: u16) -> Taken<u32> {
        let before = self.left;
        let node = self.two()?;
        if node > limit {
            return Err(self.field(before));
        }
        Ok(u32::from(node))
    }

    fn time(&mut self) -> Taken<u64> {
        let before = self.left;
        let time = u64::from_be_bytes(self.array()?);
        if time >= 1 << 40 {
            return Err(self.field(before));
        }
        Ok(time)
    }

    fn id(&mut self) -> Taken<RecordId> {
        let client = u32::from(self.byte()?);
        let number = self.counted()?;
        Ok(RecordId { client, number })
    }

    fn bytes(&mut self) -> Taken<Vec<u8>> {
        let len = match self.edition {
            Edition::One => usize::from(self.two()?),
            Edition::Two => self.four()? as usize,
        };
        if len > self.edition.record_limit() {
            return Err(FrameError::Over(self.edition.record_limit() as u32));
        }
        Ok(self.part(len)?.to_vec())
    }

    fn optional(&mut self) -> Taken<Option<Vec<u8>>> {
        let before = self.left;
        match self.byte()? {
            0 => Ok(None),
            1 => Ok(Some(self.bytes()?)),
            _ => Err(self.field(before)),
        }
    }

    fn item(&mut self) -> Taken<Item> {
        Ok(Item { id: self.id()?, bytes: self.optional()? })
    }

    fn cell(&mut self) -> Taken<Cell> {
        let id = self.id()?;
        let before = self.left;
        let body = match self.byte()? {
            0 => Body::Elsewhere,
            1 => Body::Kept(self.bytes()?),
            2 => Body::Noop,
            _ => return Err(self.field(before)),
        };
        Ok(Cell { id, body })
    }

    fn placed(&mut self) -> Taken<(u32, Entry)> {
        let place = self.four()?;
        let id = self.id()?;
        let before = self.left;
        let entry = match self.byte()? {
            1 => Entry::Kept(id, self.bytes()?),
            2 => Entry::Noop(id),
            _ => return Err(self.field(before)),
        };
        Ok((place, entry))
    }

    fn count(&mut self, limit: u32) -> Taken<usize> {
        let count = u32::from(self.two()?);
        if count > limit {
            return Err(FrameError::Over(limit));
        }
        Ok(count as usize)
    }

    fn few(&mut self, limit: u8) -> Taken<usize> {
        let before = self.left;
        let count = self.byte()?;
        if count > limit {
            return Err(FrameError::Over(u32::from(limit)));
        }
        if count == 0 {
            return Err(self.field(before));
        }
        Ok(usize::from(count))
    }

    fn members<T>(&mut self, count: usize, least: usize, read: impl Fn(&mut Self) -> Taken<T>) -> Taken<Vec<T>> {
        let room = if count * least <= self.left.len() { count } else { 0 };
        let mut members = Vec::with_capacity(room);
        for _ in 0..count {
            members.push(read(self)?);
        }
        Ok(members)
    }

    fn items(&mut self, limit: u32) -> Taken<Vec<Item>> {
        let count = self.count(limit)?;
        self.members(count, 6, Self::item)
    }

    fn cells(&mut self, limit: u32) -> Taken<Vec<Cell>> {
        let count = self.count(limit)?;
        self.members(count, 6, Self::cell)
    }

    fn ids(&mut self) -> Taken<Vec<RecordId>> {
        let count = self.count(64)?;
        self.members(count, 5, Self::id)
    }

    fn entries(&mut self) -> Taken<Vec<(u32, Entry)>> {
        let count = self.count(256)?;
        self.members(count, 10, Self::placed)
    }

    fn nodes(&mut self, limit: u8) -> Taken<Vec<u32>> {
        let count = self.few(limit)?;
        self.members(count, 2, |reader| reader.node(295))
    }

    fn config(&mut self) -> Taken<Config> {
        let view = self.counted()?;
        let seq = self.nodes(7)?;
        let count = self.few(8)?;
        let shards = self.members(count, 3, |reader| reader.nodes(4))?;
        Ok(Config { view, seq, shards })
    }

    fn marks(&mut self) -> Taken<Marks> {
        let top = self.four()?;
        let before = self.left;
        let part = self.part(8 * self.edition.words())?;
        let bits: Vec<u64> = part
            .as_chunks::<8>()
            .0
            .iter()
            .map(|word| u64::from_le_bytes(*word))
            .collect();
        if (top != 0 && bits[0].is_multiple_of(2)) || !words_end(top, &bits) {
            return Err(self.field(before));
        }
        Ok(Marks { top, bits })
    }

    fn window(&mut self) -> Taken<Vec<Marks>> {
        let before = self.left;
        let count = self.count(256)?;
        if count == 0 {
            return Err(self.field(before));
        }
        self.members(count, 4 + 8 * self.edition.words(), Self::marks)
    }

    fn message(&mut self, kind: u8) -> Taken<Msg> {
        Ok(match kind {
            1 => Msg::Append { view: self.counted()?, id: self.id()?, bytes: self.optional()? },
            2 => Msg::AppendAck { view: self.counted()?, id: self.id()? },
            3 => Msg::Put { id: self.id()?, bytes: self.bytes()? },
            4 => Msg::DataAck { view: self.counted()?, id: self.id()? },
            5 => Msg::Rejected { id: self.id()?, place: self.four()? },
            6 => Msg::Place { view: self.counted()?, from: self.four()?, items: self.items(64)? },
            7 => Msg::Placed { view: self.counted()?, upto: self.four()? },
            8 => Msg::Copy { view: self.counted()?, from: self.four()?, cells: self.cells(64)? },
            9 => Msg::Copied { view: self.counted()?, upto: self.four()? },
            10 => Msg::Order { view: self.counted()?, from: self.four()?, ids: self.ids()? },
            11 => Msg::Ordered { view: self.counted()?, upto: self.four()? },
            12 => Msg::Stable { view: self.counted()?, upto: self.four()? },
            13 => Msg::Probe { view: self.counted()?, read: self.counted()? },
            14 => Msg::ProbeAck { view: self.counted()?, read: self.counted()? },
            15 => Msg::TailReady { view: self.counted()?, read: self.counted()?, tail: self.four()? },
            16 => Msg::Fetch { read: self.counted()?, from: self.four()?, to: self.four()? },
            17 => Msg::Part { read: self.counted()?, from: self.four()?, end: self.four()?, entries: self.entries()? },
            18 => Msg::Flush { config: self.config()?, from: self.four()?, items: self.items(4_096)? },
            19 => Msg::FlushCopy { view: self.counted()?, from: self.four()?, cells: self.cells(4_096)? },
            20 => Msg::Flushed { view: self.counted()? },
            21 => Msg::Seal { view: self.counted()? },
            22 => Msg::Sealed { view: self.counted()?, bound: self.four()?, window: self.window()?, items: self.items(4_096)? },
            23 => Msg::SealedEmpty { view: self.counted()? },
            24 => Msg::NewView { config: self.config()?, base: self.four()?, window: self.window()? },
            25 => Msg::Started { view: self.counted()? },
            26 => Msg::AskView,
            27 => Msg::ViewIs { config: self.config()? },
            28 => Msg::Claim { stable: self.four()? },
            29 => Msg::Trim { read: self.counted()?, floor: self.four()? },
            30 => Msg::TrimAck { read: self.counted()? },
            _ => Msg::TrimmedAt { read: self.counted()?, floor: self.four()? },
        })
    }
}

#[inline(never)]
pub fn decode(bytes: &[u8]) -> Taken<(Edition, Envelope)> {
    let mut reader = Reader { edition: Edition::One, size: bytes.len(), left: bytes };
    reader.edition = match reader.byte()? {
        1 => Edition::One,
        2 => Edition::Two,
        _ => return Err(FrameError::Field(0)),
    };
    let kind = reader.byte()?;
    let last = if reader.edition == Edition::One { 28 } else { 31 };
    if kind < 1 || kind > last {
        return Err(FrameError::Kind(kind));
    }
    let from = reader.node(295)?;
    let to = reader.node(296)?;
    let time = reader.time()?;
    let msg = reader.message(kind)?;
    if !reader.left.is_empty() {
        return Err(FrameError::Trailing(bytes.len() - reader.left.len()));
    }
    Ok((reader.edition, Envelope { from, to, time, msg }))
}
