//! The yardstick of heads in `bench/layers.sh`: plain Rust that reads the same head by `httparse` and copies the same
//! parts of it. It prints what `edge_bench` prints.
use std::process::exit;

/// As `edge_bench` has it.
const USUAL: &str = "GET /articles/2026/11/a-day-in-the-hills?page=2&sort=newest HTTP/1.1\r\n\
Host: www.a.example\r\n\
User-Agent: Mozilla/5.0 (X11; Linux x86_64; rv:128.0) Gecko/20100101 Firefox/128.0\r\n\
Accept: text/html,application/xhtml+xml,application/xml;q=0.9,image/avif,image/webp,*/*;q=0.8\r\n\
Accept-Language: en-GB,en;q=0.7,de;q=0.3\r\n\
Accept-Encoding: gzip, deflate, br, zstd\r\n\
Referer: https://www.a.example/articles/2026/11/\r\n\
DNT: 1\r\n\
Connection: keep-alive\r\n\
Cookie: session=8f14e45fceea167a5a36dedd4bea2543; theme=dark; consent=all; seen=1764633600\r\n\
Upgrade-Insecure-Requests: 1\r\n\
Sec-Fetch-Dest: document\r\n\
Sec-Fetch-Mode: navigate\r\n\
Sec-Fetch-Site: same-origin\r\n\
Sec-Fetch-User: ?1\r\n\
Priority: u=0, i\r\n";

const HEADERS_MAX: usize = 100;
const BODY_MAX: u64 = 1_048_576;

struct Request {
    method: Vec<u8>,
    target: Vec<u8>,
    minor: u8,
    headers: Vec<(Vec<u8>, Vec<u8>)>,
    body: Vec<u8>,
}

/// How long the body is by the headers; none where it is coded, or its length is no number, twofold or too great.
fn body_length(headers: &[httparse::Header]) -> Option<usize> {
    let mut told: Option<&[u8]> = None;
    for header in headers {
        if header.name.eq_ignore_ascii_case("transfer-encoding") {
            return None;
        }
        if header.name.eq_ignore_ascii_case("content-length") {
            if told.is_some_and(|earlier| earlier != header.value) {
                return None;
            }
            told = Some(header.value);
        }
    }
    let Some(value) = told else { return Some(0) };
    if value.is_empty() || value.len() > 18 || !value.iter().all(u8::is_ascii_digit) {
        return None;
    }
    let length: u64 = std::str::from_utf8(value).ok()?.parse().ok()?;
    (length <= BODY_MAX).then_some(length as usize)
}

fn request_of(bytes: &[u8]) -> Option<Request> {
    let mut headers = [httparse::EMPTY_HEADER; HEADERS_MAX];
    let mut parsed = httparse::Request::new(&mut headers);
    let httparse::Status::Complete(end) = parsed.parse(bytes).ok()? else {
        return None;
    };
    let length = body_length(parsed.headers)?;
    let body = bytes.get(end..end + length)?;
    Some(Request {
        method: parsed.method?.as_bytes().to_vec(),
        target: parsed.path?.as_bytes().to_vec(),
        minor: parsed.version?,
        headers: parsed
            .headers
            .iter()
            .map(|header| (header.name.as_bytes().to_vec(), header.value.to_vec()))
            .collect(),
        body: body.to_vec(),
    })
}

fn headers_read(size: u32, rounds: u64) -> u64 {
    let mut head = USUAL.to_string();
    for place in 0..size {
        head.push_str(&format!("X-Field-{place}: value\r\n"));
    }
    head.push_str("\r\n");
    let mut found = 0;
    for _ in 0..rounds {
        let Some(request) = request_of(std::hint::black_box(head.as_bytes())) else {
            exit(3)
        };
        found += request.headers.len() as u64;
        std::hint::black_box((&request.method, &request.target, request.minor, &request.body));
    }
    found
}

fn main() {
    let words: Vec<String> = std::env::args().skip(1).collect();
    let [name, size, rounds] = words.as_slice() else {
        exit(2)
    };
    let (true, Ok(size @ 0..=80), Ok(rounds)) = (name == "head", size.parse(), rounds.parse()) else {
        exit(2)
    };
    println!("{name} {size} {}", headers_read(size, rounds));
}
