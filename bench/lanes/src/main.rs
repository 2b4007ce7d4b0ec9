//! The yardstick of the lanes in `bench/layers.sh`: plain Rust that counts the same steps in one map of deques, which
//! keeps every key that it ever saw. It prints what `edge_bench` prints.
mod counter;

use counter::{Answer, Counter, Key, PERIOD, key_of};
use std::process::exit;

fn passed(threshold: u64, before: u64, size: u32, rounds: u64) -> u64 {
    let keys: Vec<Key> = (0..size).map(|place| key_of(place, threshold)).collect();
    let mut counter = Counter::default();
    let mut state = 7u64;
    let mut passed = 0;
    for step in 0..before + rounds {
        state = state
            .wrapping_mul(6_364_136_223_846_793_005)
            .wrapping_add(1_442_695_040_888_963_407);
        let place = (state >> 32) as u32 % size;
        let at = step * PERIOD / u64::from(size) / threshold;
        let answer = counter.step(&keys[place as usize], at);
        if before <= step && answer == Answer::Pass {
            passed += 1;
        }
    }
    passed
}

fn main() {
    let words: Vec<String> = std::env::args().skip(1).collect();
    let [name, size, rounds] = words.as_slice() else {
        exit(2)
    };
    let (threshold, before) = match name.as_str() {
        "lane_5" => (5, 0),
        "lane_5_worn" => (5, 1_000_000),
        "lane_1000" => (1_000, 0),
        "lane_1000_worn" => (1_000, 1_000_000),
        _ => exit(2),
    };
    let (Ok(size @ 1..), Ok(rounds)) = (size.parse(), rounds.parse()) else {
        exit(2)
    };
    println!("{name} {size} {}", passed(threshold, before, size, rounds));
}
