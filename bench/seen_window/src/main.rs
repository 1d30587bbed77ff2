//! The work of `crates/seen_window_bench`.

const CLIENTS: u32 = 8;
const SPREAD: u32 = 5;
const MARKED: u32 = 65_536;

#[derive(Clone, Copy)]
struct RecordId {
    client: u32,
    number: u32,
}

impl RecordId {
    fn new(client: u32, number: u32) -> Option<RecordId> {
        (client <= 255 && number > 0).then_some(RecordId { client, number })
    }
}

struct ClientMarks {
    top: u32,
    bits: Vec<u64>,
}

fn move_up(bits: &mut [u64], by: usize) {
    let words = (by / 64).min(bits.len());
    if words > 0 {
        let rest = bits.len() - words;
        bits.copy_within(..rest, words);
        bits[..words].fill(0);
    }
    let by = by % 64;
    if by > 0 {
        let mut carried = 0;
        for word in bits.iter_mut() {
            let next = *word >> (64 - by);
            *word = (*word << by) | carried;
            carried = next;
        }
    }
}

impl ClientMarks {
    fn seen(&self, number: u32) -> bool {
        if number > self.top {
            return false;
        }
        let below = (self.top - number) as usize;
        match self.bits.get(below / 64) {
            Some(word) => (word >> (below % 64)) & 1 == 1,
            None => true,
        }
    }

    fn mark(&mut self, number: u32) {
        if number > self.top {
            move_up(&mut self.bits, (number - self.top) as usize);
            self.top = number;
        }
        let below = (self.top - number) as usize;
        if let Some(word) = self.bits.get_mut(below / 64) {
            *word |= 1 << (below % 64);
        }
    }

    fn marked(&self) -> u32 {
        self.bits.iter().map(|word| word.count_ones()).sum()
    }
}

struct SeenWindow {
    clients: Vec<ClientMarks>,
}

impl SeenWindow {
    fn new(clients: u32, window: u32) -> SeenWindow {
        SeenWindow {
            clients: (0..clients)
                .map(|_| ClientMarks {
                    top: 0,
                    bits: vec![0; (window / 64) as usize],
                })
                .collect(),
        }
    }

    fn seen(&self, id: RecordId) -> bool {
        self.clients[id.client as usize].seen(id.number)
    }

    fn mark(&mut self, id: RecordId) {
        self.clients[id.client as usize].mark(id.number);
    }

    fn top(&self, client: u32) -> u32 {
        self.clients[client as usize].top
    }

    fn marked(&self, client: u32) -> u32 {
        self.clients[client as usize].marked()
    }
}

fn id_of(round: u32) -> Option<RecordId> {
    let number = 1 + round / CLIENTS + round % SPREAD;
    RecordId::new(round % CLIENTS, number)
}

fn mark_rounds(window: &mut SeenWindow, rounds: u32) {
    for round in 0..rounds {
        if let Some(id) = id_of(round) {
            window.mark(id);
        }
    }
}

fn seen_rounds(window: &SeenWindow, rounds: u32) -> u64 {
    let mut sum = 0u64;
    for round in 0..rounds {
        if let Some(id) = id_of(round % MARKED) {
            sum = sum.wrapping_add(u64::from(window.seen(id)));
        }
    }
    sum
}

fn told(window: &SeenWindow) -> u64 {
    let mut sum = 0u64;
    for client in 0..CLIENTS {
        sum = sum.wrapping_add(u64::from(window.top(client)));
        sum = sum.wrapping_add(u64::from(window.marked(client)));
    }
    sum
}

fn main() {
    let mut arguments = std::env::args().skip(1);
    if let (Some(mode), Some(bits), Some(rounds)) =
        (arguments.next(), arguments.next(), arguments.next())
    {
        let bits = if bits == "4096" { 4096 } else { 256 };
        let rounds = rounds.parse().unwrap_or(0);
        let mut window = SeenWindow::new(CLIENTS, bits);
        let sum = match mode.as_str() {
            "mark" => {
                mark_rounds(&mut window, rounds);
                told(&window)
            }
            "seen" => {
                mark_rounds(&mut window, MARKED);
                seen_rounds(&window, rounds)
            }
            _ => 0,
        };
        println!("{sum}");
    }
}
