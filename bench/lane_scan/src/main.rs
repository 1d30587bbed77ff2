//! The work of `crates/lane_scan_bench`, with loops over single words.

const WORDS: usize = 4096;

fn some_words() -> Vec<u64> {
    (0..WORDS as u64)
        .map(|i| i.wrapping_mul(0x9e37_79b9_7f4a_7c16))
        .collect()
}

#[inline(never)]
fn find_word(words: &[u64], word: u64) -> Option<usize> {
    words.iter().position(|other| *other == word)
}

#[inline(never)]
fn first_not_full(words: &[u64]) -> Option<usize> {
    words.iter().position(|word| *word != u64::MAX)
}

#[inline(never)]
fn count_bits(words: &[u64]) -> u64 {
    words.iter().map(|word| u64::from(word.count_ones())).sum()
}

fn place_or_all(place: Option<usize>) -> u64 {
    place.unwrap_or(WORDS) as u64
}

fn late_place(round: u64) -> usize {
    WORDS - 1 - (round % 64) as usize
}

fn find(words: &[u64], rounds: u64) -> u64 {
    let mut sum = 0u64;
    for round in 0..rounds {
        sum = sum.wrapping_add(place_or_all(find_word(words, round | 1)));
        sum = sum.wrapping_add(place_or_all(find_word(words, words[late_place(round)])));
    }
    sum
}

fn full(words: &mut [u64], rounds: u64) -> u64 {
    words.fill(u64::MAX);
    let mut sum = 0u64;
    for round in 0..rounds {
        let place = late_place(round);
        words[place] = round;
        sum = sum.wrapping_add(place_or_all(first_not_full(words)));
        words[place] = u64::MAX;
    }
    sum
}

fn count(words: &mut [u64], rounds: u64) -> u64 {
    let mut sum = 0u64;
    for round in 0..rounds {
        words[late_place(round)] = round;
        sum = sum.wrapping_add(count_bits(words));
    }
    sum
}

fn main() {
    let mut arguments = std::env::args().skip(1);
    if let (Some(mode), Some(rounds)) = (arguments.next(), arguments.next()) {
        let mut words = some_words();
        let rounds = rounds.parse().unwrap_or(0);
        let sum = match mode.as_str() {
            "find" => find(&words, rounds),
            "full" => full(&mut words, rounds),
            "count" => count(&mut words, rounds),
            _ => 0,
        };
        println!("{sum}");
    }
}
