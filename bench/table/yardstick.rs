//! The yardstick of main.rt.txt: the same look-ups in a map under a lock.

use std::collections::HashMap;
use std::sync::{Arc, RwLock};
use std::thread;
use std::time::Instant;

const KEY_WORDS: usize = 56;

/// Look-ups of each reader in a round.
const CALLS: u32 = 200_000;

/// Rounds, of which the best counts.
const ROUNDS: u32 = 5;

type Key = [u64; KEY_WORDS];

type Rows = RwLock<HashMap<Key, Arc<Vec<u32>>>>;

/// The next word of Marsaglia's generator of 64 bits (shifts by 13, 7 and 17).
fn next_word(word: u64) -> u64 {
    let word = word ^ (word << 13);
    let word = word ^ (word >> 7);
    word ^ (word << 17)
}

fn make_keys(count: usize) -> Vec<Key> {
    let mut keys = Vec::with_capacity(count);
    let mut word = 1;
    for _ in 0..count {
        let mut key = [0; KEY_WORDS];
        for place in &mut key {
            word = next_word(word);
            *place = word;
        }
        keys.push(key);
    }
    keys
}

fn find(rows: &Rows, key: &Key) -> Option<Arc<Vec<u32>>> {
    rows.read().unwrap().get(key).cloned()
}

/// Looks up each key so many times, and gives the sum of the places that were found.
fn look(rows: &Rows, keys: &[Key], turns: u32) -> u64 {
    let mut sum = 0u64;
    for _ in 0..turns {
        for key in keys {
            if let Some(row) = find(rows, key) {
                sum = sum.wrapping_add(u64::from(row[0]) + 1);
            }
        }
    }
    sum
}

/// The sum over so many readers, each in a thread of its own.
fn look_by(rows: &Rows, keys: &[Key], readers: u32, turns: u32) -> u64 {
    if readers == 1 {
        return look(rows, keys, turns);
    }
    thread::scope(|scope| {
        let threads: Vec<_> = (0..readers)
            .map(|_| scope.spawn(|| look(rows, keys, turns)))
            .collect();
        threads.into_iter().map(|t| t.join().unwrap()).sum()
    })
}

fn time_all(count: u32) {
    let turns = CALLS / count;
    let keys = make_keys(count as usize);
    let rows = RwLock::new(HashMap::new());
    for (row, key) in (0..).zip(&keys) {
        rows.write().unwrap().insert(*key, Arc::new(vec![row]));
    }
    for readers in 1..=4 {
        let (nanos, sum) = (0..ROUNDS)
            .map(|_| {
                let start = Instant::now();
                let sum = look_by(&rows, &keys, readers, turns);
                (start.elapsed().as_nanos(), sum)
            })
            .min()
            .unwrap();
        println!("find, {count} keys, {readers} readers\t{nanos}\t{}\t{sum}", turns * count);
    }
}

fn main() {
    time_all(6);
    time_all(256);
}
