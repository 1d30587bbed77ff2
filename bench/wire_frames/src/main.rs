//! The work of `crates/wire_frames_bench`.

mod envelope;
mod reading;
mod writing;

use envelope::{Edition, Envelope, fits};
use reading::decode;
use writing::encode;

const FRAMES: u32 = 1_000;
const MEMBERS: u8 = 16;
const DATA: [u8; 64] = [7; 64];

const KINDS: [u8; 20] = [
    1, 2, 1, 2, 6, 8, 9, 7, 10, 11, 12, 1, 2, 6, 8, 9, 7, 12, 0, 1,
];

const FIELDS: [&[u8]; 31] = [
    b"niO", b"ni", b"iB", b"ni", b"iw", b"nwI", b"nw", b"nwC", b"nw", b"nwD", b"nw", b"nw", b"nn",
    b"nn", b"nnw", b"nww", b"nwwE", b"GwI", b"nwC", b"n", b"n", b"nwWI", b"n", b"GwW", b"n", b"",
    b"G", b"w", b"nw", b"n", b"nw",
];

fn put(out: &mut Vec<u8>, number: u32) {
    out.extend_from_slice(&number.to_be_bytes());
}

fn put_id(out: &mut Vec<u8>, seed: u32) {
    out.push((seed % 200) as u8);
    put(out, 1 + seed % 100_000);
}

fn put_bytes(out: &mut Vec<u8>, edition: Edition) {
    if edition == Edition::Two {
        out.extend_from_slice(&[0, 0]);
    }
    out.extend_from_slice(&[0, 64]);
    out.extend_from_slice(&DATA);
}

fn put_kept(out: &mut Vec<u8>, edition: Edition, seed: u32) {
    put_id(out, seed);
    out.push(1);
    put_bytes(out, edition);
}

fn put_member(out: &mut Vec<u8>, edition: Edition, list: u8, seed: u32) {
    match list {
        b'D' => put_id(out, seed),
        b'E' => {
            put(out, seed);
            put_kept(out, edition, seed);
        }
        _ => put_kept(out, edition, seed),
    }
}

fn put_list(out: &mut Vec<u8>, edition: Edition, list: u8, seed: u32) {
    out.extend_from_slice(&[0, MEMBERS]);
    for member in 0..u32::from(MEMBERS) {
        put_member(out, edition, list, seed.wrapping_add(member));
    }
}

fn put_window(out: &mut Vec<u8>, edition: Edition) {
    out.extend_from_slice(&[0, 1, 0, 0, 200, 1]);
    for _ in 0..8 * edition.words() {
        out.push(255);
    }
}

fn put_field(out: &mut Vec<u8>, edition: Edition, field: u8, seed: u32) {
    match field {
        b'n' => put(out, 1 + seed % 1_000),
        b'w' => put(out, seed),
        b'i' => put_id(out, seed),
        b'O' => {
            out.push(1);
            put_bytes(out, edition);
        }
        b'B' => put_bytes(out, edition),
        b'G' => {
            put(out, 1 + seed % 1_000);
            out.extend_from_slice(&[2, 1, 1, 1, 2, 2, 2, 1, 8, 1, 9, 2, 1, 12, 1, 13]);
        }
        b'W' => put_window(out, edition),
        _ => put_list(out, edition, field, seed),
    }
}

fn kind_of(i: u32) -> u8 {
    match KINDS[(i % 20) as usize] {
        0 => (1 + i / 20 % 31) as u8,
        kind => kind,
    }
}

fn frame(i: u32) -> Vec<u8> {
    let kind = kind_of(i);
    let is_two = i % 8 == 7 || kind > 28;
    let (edition, version) = if is_two { (Edition::Two, 2) } else { (Edition::One, 1) };
    let mut out = Vec::new();
    out.extend_from_slice(&[version, kind, 1, 1, 1, 8, 0, 0, 0, 0]);
    put(&mut out, i);
    for field in FIELDS[usize::from(kind - 1)] {
        put_field(&mut out, edition, *field, i % FRAMES);
    }
    out
}

fn decode_round(frames: &[Vec<u8>]) -> u64 {
    let mut sum = 0u64;
    for frame in frames {
        match decode(frame) {
            Ok((_, env)) => sum = sum.wrapping_add(env.time),
            Err(_) => sum = sum.wrapping_add(1_000_000),
        }
    }
    sum
}

fn encode_round(envelopes: &[(Edition, Envelope)]) -> u64 {
    let mut sum = 0u64;
    for (edition, env) in envelopes {
        if fits(*edition, env) {
            sum = sum.wrapping_add(encode(*edition, env).len() as u64);
        }
    }
    sum
}

fn main() {
    let mut arguments = std::env::args().skip(1);
    if let (Some(mode), Some(rounds)) = (arguments.next(), arguments.next()) {
        let frames: Vec<Vec<u8>> = (0..FRAMES).map(frame).collect();
        let envelopes: Vec<_> = frames.iter().filter_map(|frame| decode(frame).ok()).collect();
        let mut sum = envelopes.len() as u64;
        for _ in 0..rounds.parse().unwrap_or(0u32) {
            sum = sum.wrapping_add(match mode.as_str() {
                "decode" => decode_round(&frames),
                "encode" => encode_round(&envelopes),
                _ => 0,
            });
        }
        println!("{sum}");
    }
}
