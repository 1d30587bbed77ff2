//! The work of `crates/link_queue_bench`, over the channel of the standard library.

use std::sync::mpsc::{Receiver, SyncSender, TrySendError, sync_channel};
use std::thread;

const ROOM: usize = 1024;
const BYTES: usize = 64;

fn frame(bytes: usize) -> Vec<u8> {
    vec![1; bytes]
}

fn weigh(frame: &[u8]) -> u64 {
    frame.len() as u64 + 1
}

fn put_all(send: &SyncSender<Vec<u8>>, count: u32, bytes: usize) {
    let mut next = 0;
    let mut waiting = frame(bytes);
    while next < count {
        match send.try_send(waiting) {
            Ok(()) => {
                next += 1;
                waiting = frame(bytes);
            }
            Err(TrySendError::Full(back) | TrySendError::Disconnected(back)) => {
                waiting = back;
                thread::yield_now();
            }
        }
    }
}

fn take_all(take: &Receiver<Vec<u8>>, count: u32) -> u64 {
    let mut next = 0;
    let mut sum = 0u64;
    while next < count {
        match take.try_recv() {
            Ok(frame) => {
                sum = sum.wrapping_add(weigh(&frame));
                next += 1;
            }
            Err(_) => thread::yield_now(),
        }
    }
    sum
}

fn pair(count: u32, bytes: usize) -> u64 {
    let (send, take) = sync_channel(ROOM);
    thread::scope(|scope| {
        let send = &send;
        scope.spawn(move || put_all(send, count, bytes));
        take_all(&take, count)
    })
}

fn main() {
    let mut arguments = std::env::args().skip(1);
    if let (Some(mode), Some(count)) = (arguments.next(), arguments.next()) {
        let count = count.parse().unwrap_or(0);
        let sum = match mode.as_str() {
            "pair" => pair(count, 0),
            "filled" => pair(count, BYTES),
            _ => 0,
        };
        println!("{sum}");
    }
}
