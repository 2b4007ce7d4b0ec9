//! The yardstick of `bench/replay.sh`: plain Rust that reads the same lines with `serde_json`, judges the same rules
//! and writes the same bytes as `edge replay`. Without a word it reads the rule's expression, which compares the path; with
//! the words `three`, `hundred`, `mixed`, `list`, `limit` and `made` the conditions are written here by hand, whatever the
//! expressions are.
mod limit;
mod mixed;

use limit::Limit;
use mixed::{Blocks, Mixed};
use serde_json::Value;
use std::io::{self, BufRead, BufReader, BufWriter, Write};

/// The longest line that may be an item.
const LONGEST: usize = 1 << 20;

struct Header {
    name: String,
    value: String,
}

struct Request {
    at: u64,
    from: u32,
    method: String,
    target: String,
    headers: Vec<Header>,
}

/// When a rule blocks.
enum Condition {
    /// The path is this.
    Path(Vec<u8>),
    /// Three tests of three fields.
    Three,
    /// The path is one of these.
    OneOf(Vec<Vec<u8>>),
    /// One of the mixed conditions.
    Mixed(Mixed),
    /// The address is in one of these blocks.
    Listed(Blocks),
}

/// Which condition the word on the command line names.
#[derive(Clone, Copy)]
enum Work {
    Read,
    Three,
    Hundred,
    /// Many rules of mixed conditions.
    Mixed,
    /// One rule that asks a list of blocks.
    List,
    /// One limit for each address.
    Limit,
    /// The rules of the generator: one path, and one limit for each address.
    Made,
}

struct Rule {
    set_id: String,
    id: String,
    condition: Condition,
}

/// What a deployment puts in force: rules that block, in their order, and a limit behind them.
#[derive(Default)]
struct Rules {
    blocking: Vec<Rule>,
    limit: Option<Limit>,
}

enum Item {
    Blank,
    Deploy(Rules),
    Ask(Request),
}

fn is_token(text: &str) -> bool {
    !text.is_empty()
        && text
            .bytes()
            .all(|b| b.is_ascii_alphanumeric() || b"!#$%&'*+-.^_`|~".contains(&b))
}

fn v4(text: &str) -> Option<u32> {
    text.parse::<std::net::Ipv4Addr>().ok().map(u32::from)
}

fn headers(value: &Value) -> Option<Vec<Header>> {
    let pairs = value.as_array()?;
    if pairs.len() > 100 {
        return None;
    }
    let mut headers = Vec::new();
    for pair in pairs {
        let [name, value] = pair.as_array()?.as_slice() else {
            return None;
        };
        let (name, value) = (name.as_str()?, value.as_str()?);
        if !is_token(name) || value.bytes().any(|b| b == b'\r' || b == b'\n' || b == 0) {
            return None;
        }
        headers.push(Header {
            name: name.to_string(),
            value: value.to_string(),
        });
    }
    Some(headers)
}

fn request(value: &Value) -> Option<Request> {
    if value.as_object()?.len() != 5 {
        return None;
    }
    let at = value.get("at")?.as_u64().filter(|at| *at <= 1 << 53)?;
    let from = v4(value.get("ip")?.as_str()?)?;
    let method = value.get("method")?.as_str()?;
    if !is_token(method) || method.len() > 32 {
        return None;
    }
    let target = value.get("target")?.as_str()?;
    if target.is_empty() || target.len() > 16_384 || target.bytes().any(|b| b <= 0x20 || b == 0x7f) {
        return None;
    }
    Some(Request {
        at,
        from,
        method: method.to_string(),
        target: target.to_string(),
        headers: headers(value.get("headers")?)?,
    })
}

fn is_id(text: &str) -> bool {
    (1..=64).contains(&text.len())
        && text
            .bytes()
            .all(|b| b.is_ascii_alphanumeric() || b == b'_' || b == b'-')
}

fn blanks(text: &[u8]) -> &[u8] {
    let at = text
        .iter()
        .position(|b| !matches!(b, b' ' | b'\t' | b'\r' | b'\n'))
        .unwrap_or(text.len());
    &text[at..]
}

/// The path that an expression of the one form compares with.
fn path_of_form(text: &[u8]) -> Option<Vec<u8>> {
    if text.len() > 4096 {
        return None;
    }
    let rest = blanks(text).strip_prefix(b"http.request.uri.path".as_slice())?;
    let after = blanks(rest);
    if after.len() == rest.len() {
        return None;
    }
    let rest = blanks(after.strip_prefix(b"eq".as_slice())?).strip_prefix(b"\"".as_slice())?;
    let end = rest.iter().position(|b| matches!(b, b'"' | b'\\'))?;
    let tail = rest[end..].strip_prefix(b"\"".as_slice())?;
    blanks(tail).is_empty().then(|| rest[..end].to_vec())
}

fn has(value: &Value, name: &str, wanted: &str) -> bool {
    value.get(name).and_then(Value::as_str) == Some(wanted)
}

fn condition(work: Work, number: usize, expression: &str, lists: Option<&Value>) -> Option<Condition> {
    match work {
        Work::Read => Some(Condition::Path(path_of_form(expression.as_bytes())?)),
        Work::Limit | Work::Made => Some(Condition::Path(b"/p7".to_vec())),
        Work::Mixed => Some(Condition::Mixed(Mixed::of(number))),
        Work::List => Some(Condition::Listed(Blocks::of(lists?)?)),
        Work::Three => Some(Condition::Three),
        Work::Hundred => {
            let others = (0..99).map(|n| format!("/r{n:02}").into_bytes());
            Some(Condition::OneOf(others.chain([b"/p7".to_vec()]).collect()))
        }
    }
}

fn first_header<'a>(request: &'a Request, name: &str) -> Option<&'a str> {
    let found = request.headers.iter().find(|header| header.name.eq_ignore_ascii_case(name))?;
    Some(&found.value)
}

fn is_met(condition: &Condition, request: &Request) -> bool {
    let path = path_of(request.target.as_bytes());
    match condition {
        Condition::Path(wanted) => path == wanted,
        Condition::Three => {
            request.method == "GET"
                && path == b"/p7"
                && !first_header(request, "user-agent").is_some_and(|agent| agent.contains("bot"))
        }
        Condition::OneOf(paths) => paths.iter().any(|wanted| path == wanted),
        Condition::Mixed(mixed) => mixed.is_met(request, path),
        Condition::Listed(blocks) => blocks.has(request.from),
    }
}

fn rule(work: Work, set_id: &str, number: usize, value: &Value, lists: Option<&Value>) -> Option<Rule> {
    if value.as_object()?.len() != 3 || !has(value, "action", "block") {
        return None;
    }
    let id = value.get("id")?.as_str().filter(|id| is_id(id))?;
    let condition = condition(work, number, value.get("expression")?.as_str()?, lists)?;
    Some(Rule {
        set_id: set_id.to_string(),
        id: id.to_string(),
        condition,
    })
}

/// The rules of a ruleset that blocks.
fn blocking(work: Work, set: &Value, lists: Option<&Value>) -> Option<Vec<Rule>> {
    if set.as_object()?.len() != 4 || !has(set, "kind", "zone") {
        return None;
    }
    let set_id = set.get("id")?.as_str().filter(|id| is_id(id))?;
    let rules = set.get("rules")?.as_array()?;
    rules.iter().enumerate().map(|(n, value)| rule(work, set_id, n, value, lists)).collect()
}

fn deployment(work: Work, value: &Value) -> Option<Rules> {
    let lists = value.get("lists");
    let mut taken = Rules::default();
    for set in value.get("rulesets")?.as_array()? {
        if has(set, "phase", "http_request_firewall_custom") {
            taken.blocking = blocking(work, set, lists)?;
        } else if has(set, "phase", "http_ratelimit") {
            taken.limit = Some(Limit::of(set)?);
        } else {
            return None;
        }
    }
    Some(taken)
}

fn item(work: Work, line: &[u8]) -> Option<Item> {
    if line.len() > LONGEST {
        return None;
    }
    if line.iter().all(|b| matches!(b, b' ' | b'\t' | b'\r')) {
        return Some(Item::Blank);
    }
    let value: Value = serde_json::from_slice(line).ok()?;
    match value.get("deploy") {
        Some(deploy) if value.as_object()?.len() == 1 => deployment(work, deploy).map(Item::Deploy),
        Some(_) => None,
        None => request(&value).map(Item::Ask),
    }
}

/// The path of a target: without its authority in absolute form, and up to its first `?`.
fn path_of(target: &[u8]) -> &[u8] {
    let scheme = [b"http://".as_slice(), b"https://".as_slice()]
        .into_iter()
        .find(|s| target.len() >= s.len() && target[..s.len()].eq_ignore_ascii_case(s));
    let uri = match scheme {
        None => target,
        Some(scheme) => {
            let rest = &target[scheme.len()..];
            let at = rest.iter().position(|b| matches!(b, b'/' | b'?')).unwrap_or(rest.len());
            match rest[at..].first() {
                Some(b'/') => &rest[at..],
                _ => return b"/",
            }
        }
    };
    let end = uri.iter().position(|b| *b == b'?').unwrap_or(uri.len());
    &uri[..end]
}

fn escaped(out: &mut impl Write, text: &[u8]) -> io::Result<()> {
    for &b in text {
        if b <= 0x20 || b >= 0x7f || b == b'%' || b == b',' {
            write!(out, "%{b:02X}")?;
        } else {
            out.write_all(&[b])?;
        }
    }
    Ok(())
}

/// Judges a request and writes its line, but for its number and its version.
fn answer(out: &mut impl Write, rules: &mut Rules, steps: &mut u64, request: &Request) -> io::Result<()> {
    let target = request.target.as_bytes();
    if let Some(rule) = rules.blocking.iter().find(|rule| is_met(&rule.condition, request)) {
        write!(out, "block:403 {}/{} ", rule.set_id, rule.id)?;
        escaped(out, target)?;
        return out.write_all(b" -\n");
    }
    let Some(limit) = &mut rules.limit else {
        out.write_all(b"pass - ")?;
        escaped(out, target)?;
        return out.write_all(b" -\n");
    };
    let position = *steps;
    *steps += 1;
    match limit.step(request.from, request.at) {
        None => {
            out.write_all(b"pass - ")?;
            escaped(out, target)?;
            writeln!(out, " {position}:pass")
        }
        Some(until) => {
            write!(out, "block:429 {} ", limit.name)?;
            escaped(out, target)?;
            writeln!(out, " {position}:over@{until}")
        }
    }
}

fn work_of(word: Option<&str>) -> Option<Work> {
    match word {
        None => Some(Work::Read),
        Some("three") => Some(Work::Three),
        Some("hundred") => Some(Work::Hundred),
        Some("mixed") => Some(Work::Mixed),
        Some("list") => Some(Work::List),
        Some("limit") => Some(Work::Limit),
        Some("made") => Some(Work::Made),
        Some(_) => None,
    }
}

fn main() -> io::Result<()> {
    let Some(work) = work_of(std::env::args().nth(1).as_deref()) else {
        std::process::exit(2)
    };
    let mut input = BufReader::with_capacity(1 << 20, io::stdin().lock());
    let mut out = BufWriter::with_capacity(1 << 16, io::stdout().lock());
    let (mut lines, mut requests, mut version, mut steps) = (0u64, 0u64, 0u64, 0u64);
    let mut rules = Rules::default();
    let mut any_bad = false;
    let mut line = Vec::new();
    loop {
        line.clear();
        if input.read_until(b'\n', &mut line)? == 0 {
            break;
        }
        if line.last() == Some(&b'\n') {
            line.pop();
        }
        lines += 1;
        match item(work, &line) {
            None => {
                any_bad = true;
                writeln!(out, "bad {lines} Shape")?;
            }
            Some(Item::Blank) => {}
            Some(Item::Deploy(taken)) => {
                version += 1;
                rules = taken;
                writeln!(out, "deploy v{version}")?;
            }
            Some(Item::Ask(request)) => {
                requests += 1;
                write!(out, "{requests} v{version} ")?;
                answer(&mut out, &mut rules, &mut steps, &request)?;
            }
        }
    }
    out.flush()?;
    std::process::exit(if any_bad { 3 } else { 0 })
}
