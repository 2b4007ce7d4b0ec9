//! Conditions of which none holds of the requests of the bench, five kinds by turns; and a list of blocks of addresses.
use crate::{Request, first_header};
use serde_json::Value;

/// One of the mixed conditions.
pub enum Mixed {
    Path(String),
    HostEnd(String),
    Agent(String),
    Block(u32, u32),
    PostBelow(String),
}

impl Mixed {
    /// The condition of the rule with this number, from 0.
    pub fn of(number: usize) -> Mixed {
        match number % 5 {
            0 => Mixed::Path(format!("/n{number}")),
            1 => Mixed::HostEnd(format!(".n{number}.example")),
            2 => Mixed::Agent(format!("n{number}")),
            3 => {
                let first = (11 << 24) + ((number as u32) << 8);
                Mixed::Block(first, first + 255)
            }
            _ => Mixed::PostBelow(format!("/n{number}/")),
        }
    }

    pub fn is_met(&self, request: &Request, path: &[u8]) -> bool {
        match self {
            Mixed::Path(wanted) => path == wanted.as_bytes(),
            Mixed::HostEnd(end) => first_header(request, "host").is_some_and(|host| ends_without_case(host, end)),
            Mixed::Agent(part) => first_header(request, "user-agent").is_some_and(|agent| agent.contains(part.as_str())),
            Mixed::Block(first, last) => (*first..=*last).contains(&request.from),
            Mixed::PostBelow(front) => path.starts_with(front.as_bytes()) && request.method == "POST",
        }
    }
}

fn ends_without_case(text: &str, end: &str) -> bool {
    let (text, end) = (text.as_bytes(), end.as_bytes());
    text.len() >= end.len() && text[text.len() - end.len()..].eq_ignore_ascii_case(end)
}

/// Blocks of addresses, in order and apart.
pub struct Blocks(Vec<(u32, u32)>);

impl Blocks {
    /// The blocks of the first list of a document.
    pub fn of(lists: &Value) -> Option<Blocks> {
        let items = lists.as_array()?.first()?.get("items")?.as_array()?;
        let mut blocks: Vec<(u32, u32)> = items.iter().map(|item| block(item.as_str()?)).collect::<Option<_>>()?;
        blocks.sort_unstable();
        Some(Blocks(blocks))
    }

    pub fn has(&self, address: u32) -> bool {
        let behind = self.0.partition_point(|(first, _)| *first <= address);
        behind > 0 && address <= self.0[behind - 1].1
    }
}

fn block(text: &str) -> Option<(u32, u32)> {
    let (address, width) = text.split_once('/')?;
    let first = u32::from(address.parse::<std::net::Ipv4Addr>().ok()?);
    let width: u32 = width.parse().ok().filter(|width| (1..=32).contains(width))?;
    Some((first, first + ((1u64 << (32 - width)) - 1) as u32))
}
