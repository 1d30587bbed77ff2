//! The work of `crates/log_law_bench`.

use std::collections::BTreeMap;

type Key = (u32, u32);

#[derive(Clone, Copy, PartialEq, Eq)]
struct RecordId {
    client: u32,
    number: u32,
}

impl RecordId {
    fn key(self) -> Key {
        (self.client, self.number)
    }
}

#[allow(dead_code)]
#[derive(Clone, PartialEq)]
enum Entry {
    Kept(RecordId, Vec<u8>),
    Noop(RecordId),
    Gone(RecordId),
}

#[allow(dead_code)]
#[derive(Clone, Copy)]
enum Ask {
    Range { from: u32, to: u32 },
    Tail { from: u32 },
}

#[allow(dead_code)]
enum Event {
    Invoke(RecordId, Vec<u8>),
    Acked(RecordId),
    Rejected(RecordId, u32),
    Begin(u32, u32, Ask),
    Answer { client: u32, read: u32, from: u32, entries: Vec<Entry>, tail: Option<u32> },
    Seen { client: u32, from: u32, ids: Vec<RecordId> },
    TrimAsk { client: u32, read: u32, floor: u32 },
    TrimDone { client: u32, read: u32, floor: u32 },
    Trimmed { client: u32, read: u32, floor: u32 },
}

#[derive(Clone, Copy)]
enum Told {
    Invoked,
    Finished,
    Begun,
    Ended,
    Asked,
    Done,
}

fn event_key(told: Told, event: &Event) -> Option<Key> {
    match (told, event) {
        (Told::Invoked, Event::Invoke(id, _)) => Some(id.key()),
        (Told::Finished, Event::Acked(id) | Event::Rejected(id, _)) => Some(id.key()),
        (Told::Begun, Event::Begin(client, read, _)) => Some((*client, *read)),
        (Told::Ended, Event::Answer { client, read, .. } | Event::Trimmed { client, read, .. }) => {
            Some((*client, *read))
        }
        (Told::Asked, Event::TrimAsk { client, read, .. }) => Some((*client, *read)),
        (Told::Done, Event::TrimDone { client, read, .. }) => Some((*client, *read)),
        _ => None,
    }
}

fn event_keys(told: Told, history: &[Event]) -> Vec<Option<Key>> {
    history.iter().map(|event| event_key(told, event)).collect()
}

fn named_id(entry: &Entry) -> RecordId {
    match entry {
        Entry::Kept(id, _) | Entry::Noop(id) | Entry::Gone(id) => *id,
    }
}

fn named_keys(line: &[Entry]) -> Vec<Option<Key>> {
    line.iter().map(|entry| Some(named_id(entry).key())).collect()
}

fn appended_keys(line: &[Entry]) -> Vec<Option<Key>> {
    line.iter()
        .map(|entry| match entry {
            Entry::Noop(_) => None,
            Entry::Kept(id, _) | Entry::Gone(id) => Some(id.key()),
        })
        .collect()
}

struct KeyIndex {
    keys: Vec<Option<Key>>,
    firsts: BTreeMap<Key, usize>,
    nexts: Vec<usize>,
}

impl KeyIndex {
    fn of(keys: Vec<Option<Key>>) -> KeyIndex {
        let count = keys.len();
        let mut firsts = BTreeMap::new();
        let mut nexts = vec![count; count];
        for i in (0..count).rev() {
            if let Some(key) = keys[i] {
                nexts[i] = firsts.insert(key, i).unwrap_or(count);
            }
        }
        KeyIndex { keys, firsts, nexts }
    }

    fn first(&self, key: Key) -> usize {
        self.firsts.get(&key).copied().unwrap_or(self.keys.len())
    }
}

type Pair = Option<(usize, usize)>;

fn unique_breach(line: &[Entry]) -> Pair {
    let named = KeyIndex::of(named_keys(line));
    (0..line.len())
        .find(|p| named.keys[*p].is_some() && named.nexts[*p] < line.len())
        .map(|p| (p, named.nexts[p]))
}

fn is_invoked_with(history: &[Event], invoked: &KeyIndex, id: RecordId, bytes: &[u8]) -> bool {
    let mut i = invoked.first(id.key());
    while i < history.len() {
        if let Event::Invoke(own, own_bytes) = &history[i] {
            if *own == id && own_bytes == bytes {
                return true;
            }
        }
        i = invoked.nexts[i];
    }
    false
}

fn floor_of(event: &Event) -> u32 {
    match event {
        Event::TrimAsk { floor, .. } => *floor,
        _ => 0,
    }
}

fn invoked_breach(history: &[Event], line: &[Entry]) -> Pair {
    let invoked = KeyIndex::of(event_keys(Told::Invoked, history));
    let highest = history.iter().map(floor_of).max().unwrap_or(0);
    let is_invoked = |place: usize| match &line[place] {
        Entry::Kept(id, bytes) => is_invoked_with(history, &invoked, *id, bytes),
        Entry::Noop(id) => invoked.first(id.key()) < history.len(),
        Entry::Gone(id) => {
            invoked.first(id.key()) < history.len() && (place as u64) < u64::from(highest)
        }
    };
    (0..line.len()).find(|place| !is_invoked(*place)).map(|place| (place, 0))
}

fn finished_breach(history: &[Event], line: &[Entry]) -> Pair {
    let invoked = KeyIndex::of(event_keys(Told::Invoked, history));
    let finished = KeyIndex::of(event_keys(Told::Finished, history));
    let appended = KeyIndex::of(appended_keys(line));
    let is_finished = |j: usize| {
        if let Some(key) = invoked.keys[j] {
            return invoked.first(key) >= j;
        }
        if let Some(key) = finished.keys[j] {
            if invoked.first(key) >= j || finished.first(key) < j {
                return false;
            }
        }
        match &history[j] {
            Event::Acked(id) => appended.first(id.key()) < line.len(),
            Event::Rejected(id, place) => {
                matches!(line.get(*place as usize), Some(Entry::Noop(own)) if own == id)
            }
            _ => true,
        }
    };
    (0..history.len()).find(|j| !is_finished(*j)).map(|j| (j, 0))
}

fn limits(told: &[Option<Key>], named: &KeyIndex) -> Vec<u64> {
    let limit = |key: Key| {
        let place = named.first(key);
        if place < named.keys.len() { place as u64 + 1 } else { u64::MAX }
    };
    told.iter().map(|told| told.map_or(0, limit)).collect()
}

fn lowest_places(told: &[Option<Key>], named: &KeyIndex) -> Vec<u64> {
    let lowest = |key: Key| {
        let place = named.first(key);
        if place < named.keys.len() { place as u64 } else { u64::MAX }
    };
    told.iter().map(|told| told.map_or(u64::MAX, lowest)).collect()
}

fn first_row(bounds: &[u64], lows: &[u64]) -> usize {
    let mut row = lows.len();
    let mut least = u64::MAX;
    for i in (0..lows.len()).rev() {
        if least < bounds[i] {
            row = i;
        }
        if lows[i] < least {
            least = lows[i];
        }
    }
    row
}

fn first_pair(bounds: &[u64], lows: &[u64]) -> Pair {
    let row = first_row(bounds, lows);
    if row == lows.len() {
        return None;
    }
    let column = (row + 1..lows.len()).find(|j| lows[*j] < bounds[row]);
    Some((row, column.unwrap_or(lows.len())))
}

fn ordered_breach(history: &[Event], line: &[Entry]) -> Pair {
    let named = KeyIndex::of(named_keys(line));
    let finished = event_keys(Told::Finished, history);
    let invoked = event_keys(Told::Invoked, history);
    first_pair(&limits(&finished, &named), &lowest_places(&invoked, &named))
}

fn asked_by(history: &[Event], begun: &KeyIndex, ended: &KeyIndex, j: usize, key: Key) -> Option<Ask> {
    let b = begun.first(key);
    if b >= j || begun.nexts[b] < j || ended.first(key) < j {
        return None;
    }
    match &history[b] {
        Event::Begin(_, _, ask) => Some(*ask),
        _ => None,
    }
}

fn fits_ask(ask: Ask, from: u32, count: usize, tail: Option<u32>, long: usize) -> bool {
    let (asked_from, asked_to, is_tail) = match ask {
        Ask::Range { from, to } => (from, u64::from(to), false),
        Ask::Tail { from } => (from, u64::from(from) + 256, true),
    };
    if asked_from != from {
        return false;
    }
    match tail {
        Some(tail) => {
            tail as usize <= long
                && count as u64 == asked_to.min(u64::from(tail)).saturating_sub(u64::from(from))
        }
        None => !is_tail && u64::from(from) + count as u64 == asked_to,
    }
}

fn is_told(history: &[Event], invoked: &KeyIndex, entry: &Entry, told: &Entry) -> bool {
    match (entry, told) {
        (Entry::Kept(id, bytes), Entry::Kept(own, own_bytes)) => id == own && bytes == own_bytes,
        (Entry::Noop(id), Entry::Noop(own)) => id == own,
        (Entry::Gone(id), Entry::Kept(own, bytes)) => {
            id == own && is_invoked_with(history, invoked, *id, bytes)
        }
        _ => false,
    }
}

fn slices_breach(history: &[Event], line: &[Entry]) -> Pair {
    let begun = KeyIndex::of(event_keys(Told::Begun, history));
    let ended = KeyIndex::of(event_keys(Told::Ended, history));
    let invoked = KeyIndex::of(event_keys(Told::Invoked, history));
    let keeps = |j: usize| match &history[j] {
        Event::Answer { client, read, from, entries, tail } => {
            match asked_by(history, &begun, &ended, j, (*client, *read)) {
                Some(ask) => {
                    fits_ask(ask, *from, entries.len(), *tail, line.len())
                        && entries.iter().enumerate().all(|(k, told)| {
                            line.get(*from as usize + k)
                                .is_some_and(|entry| is_told(history, &invoked, entry, told))
                        })
                }
                None => false,
            }
        }
        Event::Seen { from, ids, .. } => ids.iter().enumerate().all(|(k, id)| {
            line.get(*from as usize + k).is_some_and(|entry| named_id(entry) == *id)
        }),
        _ => true,
    };
    (0..history.len()).find(|j| !keeps(*j)).map(|j| (j, 0))
}

fn forced_key(event: &Event) -> Option<(Key, u32)> {
    match event {
        Event::Answer { client, read, tail: Some(tail), .. } => Some(((*client, *read), *tail)),
        _ => None,
    }
}

fn least_tails(history: &[Event]) -> Vec<u64> {
    let count = history.len();
    let mut tails: BTreeMap<Key, u64> = BTreeMap::new();
    let mut made = vec![0; count];
    for b in (0..count).rev() {
        let of = |key: Key| tails.get(&key).copied().unwrap_or(u64::MAX);
        made[b] = event_key(Told::Begun, &history[b]).map_or(u64::MAX, of);
        if let Some((key, tail)) = forced_key(&history[b]) {
            let least = of(key).min(u64::from(tail));
            tails.insert(key, least);
        }
    }
    made
}

fn covered_breach(history: &[Event], line: &[Entry]) -> Pair {
    let named = KeyIndex::of(named_keys(line));
    let finished = event_keys(Told::Finished, history);
    first_pair(&limits(&finished, &named), &least_tails(history))
}

fn end_of(from: u32, count: usize) -> u64 {
    if count == 0 { 0 } else { u64::from(from) + count as u64 }
}

fn shown_reach(event: &Event) -> u64 {
    match event {
        Event::Answer { tail: Some(tail), .. } => u64::from(*tail),
        Event::Answer { from, entries, .. } => end_of(*from, entries.len()),
        Event::Seen { from, ids, .. } => end_of(*from, ids.len()),
        _ => 0,
    }
}

fn told_reach(event: &Event) -> u64 {
    match event {
        Event::TrimDone { floor, .. } | Event::Trimmed { floor, .. } => u64::from(*floor),
        _ => shown_reach(event),
    }
}

fn tails_breach(history: &[Event]) -> Pair {
    let bounds: Vec<u64> = history.iter().map(shown_reach).collect();
    let lows = least_tails(history);
    let row = first_row(&bounds, &lows);
    if row == history.len() {
        return None;
    }
    let mut begun: BTreeMap<Key, usize> = BTreeMap::new();
    for j in row + 1..history.len() {
        if let Some((key, tail)) = forced_key(&history[j]) {
            if u64::from(tail) < bounds[row] && begun.contains_key(&key) {
                return Some((row, j));
            }
        }
        if let Some(key) = event_key(Told::Begun, &history[j]) {
            begun.insert(key, j);
        }
    }
    Some((row, history.len()))
}

fn behind_breach(history: &[Event], line: &[Entry]) -> Pair {
    let named = KeyIndex::of(named_keys(line));
    let invoked = event_keys(Told::Invoked, history);
    let bounds: Vec<u64> = history.iter().map(told_reach).collect();
    first_pair(&bounds, &lowest_places(&invoked, &named))
}

fn is_asked_once(history: &[Event], asked: &KeyIndex, j: usize, key: Key, floor: u32) -> bool {
    let next = |mut n: usize| {
        while n < j && floor_of(&history[n]) != floor {
            n = asked.nexts[n];
        }
        n
    };
    let one = next(asked.first(key));
    one < j && next(asked.nexts[one]) >= j
}

fn trims_breach(history: &[Event]) -> Pair {
    let begun = KeyIndex::of(event_keys(Told::Begun, history));
    let ended = KeyIndex::of(event_keys(Told::Ended, history));
    let asked = KeyIndex::of(event_keys(Told::Asked, history));
    let done = KeyIndex::of(event_keys(Told::Done, history));
    let mut highest = 0;
    for j in 0..history.len() {
        let keeps = match &history[j] {
            Event::Trimmed { client, read, floor } => {
                match asked_by(history, &begun, &ended, j, (*client, *read)) {
                    Some(Ask::Range { from, .. } | Ask::Tail { from }) => {
                        from < *floor && *floor <= highest
                    }
                    None => false,
                }
            }
            Event::TrimDone { client, read, floor } => {
                let key = (*client, *read);
                done.first(key) >= j && is_asked_once(history, &asked, j, key, *floor)
            }
            _ => true,
        };
        if !keeps {
            return Some((j, 0));
        }
        highest = highest.max(floor_of(&history[j]));
    }
    None
}

/// The number of the first clause that is broken with its first pair, or nothing.
fn check(history: &[Event], line: &[Entry]) -> Option<(u8, (usize, usize))> {
    if let Some(pair) = unique_breach(line) {
        return Some((1, pair));
    }
    if let Some(pair) = invoked_breach(history, line) {
        return Some((2, pair));
    }
    if let Some(pair) = finished_breach(history, line) {
        return Some((3, pair));
    }
    if let Some(pair) = ordered_breach(history, line) {
        return Some((4, pair));
    }
    if let Some(pair) = slices_breach(history, line) {
        return Some((5, pair));
    }
    if let Some(pair) = covered_breach(history, line) {
        return Some((6, pair));
    }
    if let Some(pair) = tails_breach(history) {
        return Some((7, pair));
    }
    if let Some(pair) = behind_breach(history, line) {
        return Some((8, pair));
    }
    trims_breach(history).map(|pair| (9, pair))
}

fn push_append(history: &mut Vec<Event>, line: &mut Vec<Entry>, id: RecordId) {
    history.push(Event::Invoke(id, b"12345678".to_vec()));
    line.push(Entry::Kept(id, b"12345678".to_vec()));
}

fn fill_appends(history: &mut Vec<Event>, line: &mut Vec<Entry>, count: u32) {
    for i in 0..count {
        push_append(history, line, RecordId { client: i % 16, number: i / 16 + 1 });
    }
}

fn fill_mixed(history: &mut Vec<Event>, line: &mut Vec<Entry>, count: u32) {
    for group in 0..count / 8 {
        let read = group + 1;
        let from = group * 2;
        let a = RecordId { client: 0, number: read };
        let b = RecordId { client: 1, number: read };
        push_append(history, line, a);
        push_append(history, line, b);
        history.push(Event::Acked(a));
        history.push(Event::Acked(b));
        history.push(Event::Begin(2, read, Ask::Tail { from }));
        let entries =
            vec![Entry::Kept(a, b"12345678".to_vec()), Entry::Kept(b, b"12345678".to_vec())];
        history.push(Event::Answer { client: 2, read, from, entries, tail: Some(from + 2) });
        history.push(Event::Seen { client: 3, from, ids: vec![a, b] });
        history.push(Event::TrimAsk { client: 4, read, floor: 0 });
    }
}

fn number(verdict: Option<(u8, (usize, usize))>) -> u64 {
    match verdict {
        None => 1,
        Some((clause, (first, second))) => u64::from(clause)
            .wrapping_mul(1_000_003)
            .wrapping_add(first as u64)
            .wrapping_mul(1_000_003)
            .wrapping_add(second as u64),
    }
}

fn main() {
    let words: Vec<String> = std::env::args().collect();
    let count = words[2].parse().unwrap_or(0);
    let rounds: u32 = words[3].parse().unwrap_or(0);
    let mut history = Vec::new();
    let mut line = Vec::new();
    if words[1] == "appends" {
        fill_appends(&mut history, &mut line, count);
    } else {
        fill_mixed(&mut history, &mut line, count);
    }
    let mut other = line.clone();
    if other.len() > 1 {
        let last = other.len() - 1;
        other.swap(0, last);
    }
    let mut sum = 0u64;
    for _ in 0..rounds {
        sum = sum.wrapping_mul(31).wrapping_add(number(check(&history, &line)));
        if words[1] != "appends" {
            sum = sum.wrapping_mul(31).wrapping_add(number(check(&history, &other)));
        }
    }
    println!("{sum}");
}
