//! `load post PORT TENANTS CONNECTIONS RATE SECONDS SPANS [FIRST] [each]`: posts bodies of so many spans to a collector
//! for so long, for `tenant-FIRST` and so on in turn, from `tenant-0` if that isn't given, over so many connections that
//! stay open, at so many requests a second in all; with RATE 0 each connection posts as soon as it was answered. At a
//! rate a request's time is from the moment at which it was due, so one that waits for a slow one before it counts as
//! slow too. A span begins when it is posted.
//!
//! It prints one line: how many requests were answered, of these how many not by 200 with an empty body, how many
//! spans the others had, the seconds from the first request to the last answer, and of the requests' times in
//! microseconds the one that half of them and that 99 of 100 don't exceed, and the longest. With `each` a line for each
//! request follows: its tenant's number, its time, when it was answered in microseconds since 1970, and 1 where that was
//! by 200 with an empty body, else 0.

use crate::http::Reader;
use crate::shares::within;
use crate::wire::{
    put_fixed, put_number, put_piece, REQUEST_RESOURCE_SPANS, RESOURCE_SPANS_SCOPE_SPANS, SCOPE_SPANS_SPANS, SPAN_END,
    SPAN_START,
};
use std::io::{self, Write};
use std::net::TcpStream;
use std::thread;
use std::time::{Duration, Instant, SystemTime};

const LENGTH: u64 = 25_000_000;
const SPANS_OF_A_TRACE: usize = 12;
/// With these a span has 460 bytes.
const TEXTS: [(&str, &str); 10] = [
    ("http.request.method", "GET"),
    ("http.route", "/v1/orders/{order}/items/{item}"),
    ("url.scheme", "https"),
    ("server.address", "orders.internal.example"),
    ("network.protocol.version", "1.1"),
    ("customer.tier", "silver"),
    ("user_agent.original", "orders-client/4.2 (linux)"),
    ("code.function.name", "orders::items::read"),
    ("url.path", "/v1/orders/1a2b3c4d/items/77"),
    ("thread.name", "pool-1"),
];

/// What is to be posted, and where.
#[derive(Clone, Copy)]
pub struct Load {
    pub port: u16,
    /// The number of the first tenant.
    pub first: usize,
    pub tenants: usize,
    pub connections: usize,
    /// Requests a second; 0 for as many as are answered.
    pub rate: u32,
    pub time: Duration,
    /// Of each request.
    pub spans: usize,
    /// Whether each request is told of.
    pub each: bool,
}

/// A request's bytes but for the ids and the times, which are other ones in each request.
struct Body {
    text: Vec<u8>,
    // Where each span's trace id begins; its own id is behind that and two bytes.
    ids: Vec<usize>,
    // So many bytes behind that its start stands.
    start: usize,
}

/// A request that was answered.
struct Told {
    tenant: usize,
    micros: u64,
    at: SystemTime,
    taken: bool,
}

fn attribute(text: &mut Vec<u8>, field: u64, key: &str, value: &str) {
    let (mut inner, mut pair) = (Vec::new(), Vec::new());
    put_piece(&mut inner, 1, value.as_bytes());
    put_piece(&mut pair, 1, key.as_bytes());
    put_piece(&mut pair, 2, &inner);
    put_piece(text, field, &pair);
}

/// A span's bytes, and where its start stands in them. Its end is behind that and a byte.
fn span() -> (Vec<u8>, usize) {
    let mut text = Vec::new();
    put_piece(&mut text, 1, &[0; 16]);
    put_piece(&mut text, 2, &[0; 8]);
    put_piece(&mut text, 5, b"GET /v1/orders/{order}/items/{item}");
    put_number(&mut text, 6, 2);
    put_fixed(&mut text, SPAN_START, 0);
    let start = text.len() - 8;
    put_fixed(&mut text, SPAN_END, 0);
    for (key, value) in TEXTS {
        attribute(&mut text, 9, key, value);
    }
    (text, start)
}

impl Body {
    fn new(spans: usize) -> Self {
        let (mut scope_spans, mut resource) = (Vec::new(), Vec::new());
        let mut behind = Vec::new();
        let (text, start_of_span) = span();
        for _ in 0..spans {
            put_piece(&mut scope_spans, SCOPE_SPANS_SPANS, &text);
            behind.push((scope_spans.len() - text.len(), text.len()));
        }
        attribute(&mut resource, 1, "service.name", "orders");
        let (mut resource_spans, mut text) = (Vec::new(), Vec::new());
        put_piece(&mut resource_spans, 1, &resource);
        put_piece(&mut resource_spans, RESOURCE_SPANS_SCOPE_SPANS, &scope_spans);
        put_piece(&mut text, REQUEST_RESOURCE_SPANS, &resource_spans);
        let start = text.len() - scope_spans.len();
        let ids = behind.iter().map(|(at, _)| start + at + 2).collect();
        Body {
            text,
            ids,
            start: start_of_span - 2,
        }
    }

    /// Gives each span ids that no other request has, and that look like any, and a beginning at this time.
    fn number(&mut self, connection: usize, request: u64, now: u64) {
        for (place, at) in self.ids.iter().enumerate() {
            let trace = (connection as u64) << 48 | (request + 1) << 12 | (place / SPANS_OF_A_TRACE) as u64;
            self.text[*at..at + 8].copy_from_slice(&mixed(trace).to_be_bytes());
            self.text[at + 8..at + 16].copy_from_slice(&mixed(!trace).to_be_bytes());
            self.text[at + 18..at + 26].copy_from_slice(&mixed(place as u64 + 1).to_be_bytes());
            let start = at + self.start;
            let begins = now + place as u64;
            self.text[start..start + 8].copy_from_slice(&begins.to_le_bytes());
            self.text[start + 9..start + 17].copy_from_slice(&(begins + LENGTH).to_le_bytes());
        }
    }
}

/// Another number for each number, and 0 for 0 alone: the steps of splitmix64.
fn mixed(mut number: u64) -> u64 {
    number = (number ^ number >> 30).wrapping_mul(0xbf58_476d_1ce4_e5b9);
    number = (number ^ number >> 27).wrapping_mul(0x94d0_49bb_1331_11eb);
    number ^ number >> 31
}

fn nanos_since_1970() -> u64 {
    let now = SystemTime::now().duration_since(SystemTime::UNIX_EPOCH);
    now.map_or(0, |time| time.as_nanos() as u64)
}

/// What one connection was told.
fn connection(load: Load, number: usize, start: Instant) -> io::Result<Vec<Told>> {
    let peer = TcpStream::connect(("127.0.0.1", load.port))?;
    peer.set_nodelay(true)?;
    let mut reader = Reader::new(&peer);
    let mut body = Body::new(load.spans);
    let mut told = Vec::new();
    for request in 0.. {
        let turn = request as usize * load.connections + number;
        let due = match load.rate {
            0 => Instant::now(),
            rate => start + Duration::from_secs(1) * turn as u32 / rate,
        };
        if due >= start + load.time {
            break;
        }
        thread::sleep(due.saturating_duration_since(Instant::now()));
        body.number(number, request, nanos_since_1970());
        let mut text = format!(
            "POST /v1/traces HTTP/1.1\r\nHost: c\r\nX-Scope-OrgID: tenant-{}\r\n\
             Content-Type: application/x-protobuf\r\nContent-Length: {}\r\n\r\n",
            load.first + turn % load.tenants,
            body.text.len()
        )
        .into_bytes();
        text.extend_from_slice(&body.text);
        (&peer).write_all(&text)?;
        let Some(reply) = reader.next()? else {
            return Err(io::Error::from(io::ErrorKind::UnexpectedEof));
        };
        told.push(Told {
            tenant: load.first + turn % load.tenants,
            micros: due.elapsed().as_micros() as u64,
            at: SystemTime::now(),
            taken: reply.start.starts_with("HTTP/1.1 200 ") && reply.body.is_empty(),
        });
    }
    Ok(told)
}

/// Posts over all connections, and prints what came of it.
pub fn run(load: Load) -> io::Result<()> {
    let start = Instant::now();
    let threads: Vec<_> = (0..load.connections)
        .map(|number| thread::spawn(move || connection(load, number, start)))
        .collect();
    let mut all = Vec::new();
    for thread in threads {
        all.extend(thread.join().expect("a connection ends")?);
    }
    print_sums(load, &all, start.elapsed().as_millis());
    if load.each {
        print_each(&all)?;
    }
    Ok(())
}

fn print_sums(load: Load, all: &[Told], millis: u128) {
    let mut micros: Vec<u64> = all.iter().map(|told| told.micros).collect();
    micros.sort_unstable();
    let taken = all.iter().filter(|told| told.taken).count();
    println!(
        "requests={} others={} spans={} millis={millis} half={} most_99={} most={}",
        all.len(),
        all.len() - taken,
        taken * load.spans,
        within(&micros, 50),
        within(&micros, 99),
        within(&micros, 100)
    );
}

fn print_each(all: &[Told]) -> io::Result<()> {
    let mut out = io::stdout().lock();
    for told in all {
        let at = told
            .at
            .duration_since(SystemTime::UNIX_EPOCH)
            .map_or(0, |time| time.as_micros());
        writeln!(out, "{} {} {at} {}", told.tenant, told.micros, u8::from(told.taken))?;
    }
    Ok(())
}
