//! A limit for each address: so many requests in a period, and a mitigation where there are more.
use serde_json::Value;
use std::collections::{HashMap, VecDeque};

/// What is known of one address.
#[derive(Default)]
struct Seen {
    /// The moments that count, in order.
    moments: VecDeque<u64>,
    /// The end of the mitigation that runs, or 0.
    until: u64,
}

pub struct Limit {
    pub name: String,
    period: u64,
    most: usize,
    timeout: u64,
    seen: HashMap<u32, Seen>,
}

impl Limit {
    /// The limit of the one rule of a ruleset.
    pub fn of(set: &Value) -> Option<Limit> {
        let [rule] = set.get("rules")?.as_array()?.as_slice() else {
            return None;
        };
        let told = rule.get("ratelimit")?;
        let number = |name: &str| told.get(name).and_then(Value::as_u64);
        Some(Limit {
            name: format!("{}/{}", set.get("id")?.as_str()?, rule.get("id")?.as_str()?),
            period: number("period")? * 1000,
            most: number("requests_per_period")? as usize,
            timeout: number("mitigation_timeout")? * 1000,
            seen: HashMap::new(),
        })
    }

    /// A request of this address at this moment: the end of the mitigation, if it is over the limit.
    pub fn step(&mut self, address: u32, at: u64) -> Option<u64> {
        let seen = self.seen.entry(address).or_default();
        if at < seen.until {
            return Some(seen.until);
        }
        while seen.moments.front().is_some_and(|moment| moment + self.period <= at) {
            seen.moments.pop_front();
        }
        if seen.moments.len() >= self.most {
            seen.until = at + self.timeout;
            return Some(seen.until);
        }
        seen.moments.push_back(at);
        None
    }
}
