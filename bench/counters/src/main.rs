//! The yardstick of shared counters in `bench/layers.sh`: plain Rust in which 64 mutexes stand round the counter of
//! `bench/lanes`. It prints what `edge_bench` prints.
#[path = "../../lanes/src/counter.rs"]
mod counter;

use counter::{Counter, Key, key_of};
use std::process::exit;
use std::sync::Mutex;
use std::thread;

const LANES: usize = 64;
const KEYS: usize = 16;
const PLACES: u32 = 1 << 20;
const PAUSE: u64 = 375;
const THRESHOLD: u64 = 5;

/// The lane of a key, as `edge_bench` has it: FNV-1a of all that a key is.
fn lane_of(key: &Key) -> usize {
    let mut hash = 0xcbf2_9ce4_8422_2325u64;
    let mut take = |bytes: &[u8]| {
        for byte in bytes {
            hash = (hash ^ u64::from(*byte)).wrapping_mul(0x0100_0000_01b3);
        }
    };
    take(key.set_id.as_bytes());
    take(&[0]);
    take(key.rule.as_bytes());
    take(&[0]);
    take(&key.period.to_be_bytes());
    take(&key.threshold.to_be_bytes());
    take(&key.timeout.to_be_bytes());
    take(&key.values);
    (hash % LANES as u64) as usize
}

/// The keys of a thread, all on this lane.
fn keys_on(lane: usize, thread: u32) -> Vec<Key> {
    let first = thread * PLACES;
    (first..first + PLACES)
        .map(|place| key_of(place, THRESHOLD))
        .filter(|key| lane_of(key) == lane)
        .take(KEYS)
        .collect()
}

/// How many steps were answered of a thread.
fn steps_of(lanes: &[Mutex<Counter>], keys: &[Key], rounds: u64) -> u64 {
    let mut state = 7u64;
    let mut answered = 0;
    for step in 0..rounds {
        state = state
            .wrapping_mul(6_364_136_223_846_793_005)
            .wrapping_add(1_442_695_040_888_963_407);
        let key = &keys[(state >> 32) as u32 as usize % KEYS];
        let mut lane = lanes[lane_of(key)].lock().unwrap();
        std::hint::black_box(lane.step(key, step * PAUSE));
        answered += 1;
    }
    answered
}

fn answered(apart: bool, threads: u32, rounds: u64) -> u64 {
    let lanes: Vec<Mutex<Counter>> = (0..LANES).map(|_| Mutex::default()).collect();
    let lanes = lanes.as_slice();
    thread::scope(|scope| {
        let begun: Vec<_> = (0..threads)
            .map(|thread| {
                scope.spawn(move || {
                    let keys = keys_on(if apart { thread as usize } else { 0 }, thread);
                    steps_of(lanes, &keys, rounds)
                })
            })
            .collect();
        begun.into_iter().map(|one| one.join().unwrap()).sum()
    })
}

fn main() {
    let words: Vec<String> = std::env::args().skip(1).collect();
    let [name, threads, rounds] = words.as_slice() else {
        exit(2)
    };
    let apart = match name.as_str() {
        "count_apart" => true,
        "count_together" => false,
        _ => exit(2),
    };
    let (Ok(threads @ 1..=64), Ok(rounds)) = (threads.parse(), rounds.parse()) else {
        exit(2)
    };
    println!("{name} {threads} {}", answered(apart, threads, rounds));
}
