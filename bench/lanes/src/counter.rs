//! A counter by the window rule in one map of deques, which keeps every key that it ever saw, and the keys of the benches.
use std::collections::{HashMap, VecDeque};

pub const PERIOD: u64 = 60_000;
const TIMEOUT: u64 = 10_000;

#[derive(Clone, PartialEq, Eq, Hash)]
pub struct Key {
    pub set_id: String,
    pub rule: String,
    pub period: u64,
    pub threshold: u64,
    pub timeout: u64,
    pub values: Vec<u8>,
}

#[derive(Default)]
struct State {
    held_until: u64,
    moments: VecDeque<u64>,
}

#[derive(Clone, Copy, PartialEq, Eq)]
pub enum Answer {
    Pass,
    Over { until: u64 },
}

#[derive(Default)]
pub struct Counter {
    moment: u64,
    states: HashMap<Key, State>,
}

impl Counter {
    pub fn step(&mut self, key: &Key, asked: u64) -> Answer {
        self.moment = self.moment.max(asked);
        let at = self.moment;
        let state = match self.states.get_mut(key) {
            Some(state) => state,
            None => self.states.entry(key.clone()).or_default(),
        };
        if at < state.held_until {
            return Answer::Over { until: state.held_until };
        }
        while state.moments.front().is_some_and(|first| first + key.period <= at) {
            state.moments.pop_front();
        }
        if state.moments.len() as u64 == key.threshold {
            state.held_until = at + key.timeout;
            return Answer::Over { until: state.held_until };
        }
        state.moments.push_back(at);
        Answer::Pass
    }
}

/// The number of a place, as `edge_bench` has it.
fn number_at(place: u32) -> u128 {
    u128::from(place)
        .wrapping_mul(47_026_247_687_942_121_848_144_207_491_837_523_525)
        .wrapping_add(117_397_592_171_526_113_268_558_934_119_004_209_487)
}

pub fn key_of(place: u32, threshold: u64) -> Key {
    Key {
        set_id: "limits".to_string(),
        rule: "by_address".to_string(),
        period: PERIOD,
        threshold,
        timeout: TIMEOUT,
        values: number_at(place).to_be_bytes().to_vec(),
    }
}
