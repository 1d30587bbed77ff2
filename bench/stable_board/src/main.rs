//! The work of `crates/stable_board_bench`.

use std::sync::Arc;
use std::sync::atomic::AtomicU64;
use std::sync::atomic::Ordering::SeqCst;

const PLACES: u32 = 65_536;
const PEEKS: u32 = 1_000_000;

struct Publisher {
    words: Arc<Vec<AtomicU64>>,
    verified: u32,
}

impl Publisher {
    fn claim(&mut self, order: &[(u32, u32)], time: u64, replica: u32) -> bool {
        let stable = order.len() as u32;
        while self.verified < stable {
            let (client, number) = order[self.verified as usize];
            let own = u64::from(client) << 32 | u64::from(number);
            let word = &self.words[self.verified as usize + 1];
            let found = match word.compare_exchange(0, own, SeqCst, SeqCst) {
                Ok(found) | Err(found) => found,
            };
            if found != 0 && found != own {
                return false;
            }
            self.verified += 1;
        }
        let claim = u64::from(stable) << 45 | time << 5 | u64::from(replica);
        self.words[0].fetch_max(claim, SeqCst);
        true
    }
}

fn peek(words: &[AtomicU64]) -> (u32, u64, u32) {
    let word = words[0].load(SeqCst);
    ((word >> 45) as u32, word >> 5 & ((1 << 40) - 1), (word & 31) as u32)
}

fn board() -> Arc<Vec<AtomicU64>> {
    Arc::new((0..=PLACES).map(|_| AtomicU64::new(0)).collect())
}

fn order() -> Vec<(u32, u32)> {
    (1..=PLACES).map(|number| (number % 16, number)).collect()
}

fn claim_round(order: &[(u32, u32)]) -> (Arc<Vec<AtomicU64>>, u64) {
    let words = board();
    let mut publisher = Publisher {
        words: Arc::clone(&words),
        verified: 0,
    };
    let done = publisher.claim(order, 1, 0);
    (words, if done { order.len() as u64 } else { 0 })
}

fn main() {
    let mut arguments = std::env::args().skip(1);
    if let (Some(mode), Some(rounds)) = (arguments.next(), arguments.next()) {
        let rounds: u32 = rounds.parse().unwrap_or(0);
        let order = order();
        let mut sum = 0u64;
        match mode.as_str() {
            "claim" => {
                for _ in 0..rounds {
                    sum = sum.wrapping_add(claim_round(&order).1);
                }
            }
            "peek" => {
                let (words, claimed) = claim_round(&order);
                sum = claimed;
                for _ in 0..rounds {
                    for _ in 0..PEEKS {
                        sum = sum.wrapping_add(u64::from(peek(&words).0));
                    }
                }
            }
            _ => {}
        }
        println!("{sum}");
    }
}
