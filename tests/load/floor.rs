//! `load serve SETTINGS` stands where a collector would and does nothing of its work: what it takes is the least that
//! the system takes for posts and jobs where each body is a batch of its own, as with 64 tenants at 200 requests a
//! second. Each connection has a thread, which reads posts and answers 200. A body waits a second, as for its decision,
//! and then 200 milliseconds, as for its batch. One of two threads wakes for either, and hands the body as it came to
//! one of four, which connects to the back end, posts, reads the answer and closes. It ends with its input, and says how
//! many spans came and were answered, a hundred a body.

use std::collections::VecDeque;
use std::io::{self, Read, Write};
use std::net::{TcpListener, TcpStream};
use std::sync::atomic::{AtomicU64, Ordering::SeqCst};
use std::sync::{Condvar, Mutex};
use std::time::{Duration, Instant};
use std::{fs, thread};

const DECISION: Duration = Duration::from_millis(1_000);
const BATCH: Duration = Duration::from_millis(200);
const SENDERS: usize = 4;
const SPANS: u64 = 100;
const REPLY: &[u8] = b"HTTP/1.1 200 OK\r\nContent-Type: application/x-protobuf\r\nContent-Length: 0\r\n\r\n";

/// Bodies that wait, each with when it is due.
type Waiting = VecDeque<(Instant, Vec<u8>)>;

static UNDECIDED: [Mutex<Waiting>; 2] = [const { Mutex::new(VecDeque::new()) }; 2];
static JOBS: Mutex<VecDeque<Vec<u8>>> = Mutex::new(VecDeque::new());
static BELL: Condvar = Condvar::new();
static ACCEPTED: AtomicU64 = AtomicU64::new(0);
static EXPORTED: AtomicU64 = AtomicU64::new(0);

/// What is due within this millisecond, so that it shares a wake.
fn due(waiting: &mut Waiting) -> Vec<Vec<u8>> {
    let soon = Instant::now() + Duration::from_millis(1);
    let count = waiting.iter().take_while(|first| first.0 <= soon).count();
    waiting.drain(..count).map(|first| first.1).collect()
}

/// Takes turns. What comes is due later than this wakes, so nobody wakes it.
fn turn(undecided: &Mutex<Waiting>) {
    let (mut decided, nothing, nobody) = (VecDeque::new(), Mutex::new(()), Condvar::new());
    loop {
        for body in due(&mut decided) {
            JOBS.lock().unwrap().push_back(body);
            BELL.notify_one();
        }
        let mut undecided = undecided.lock().unwrap();
        let until = Instant::now() + BATCH;
        decided.extend(due(&mut undecided).into_iter().map(|body| (until, body)));
        let firsts = [undecided.front(), decided.front()].into_iter().flatten();
        let next = firsts.map(|first| first.0).min();
        drop(undecided);
        let left = next.map_or(DECISION, |next| next.saturating_duration_since(Instant::now()));
        drop(nobody.wait_timeout(nothing.lock().unwrap(), left));
    }
}

fn send(port: u16) -> io::Result<()> {
    let jobs = JOBS.lock().unwrap();
    let body = BELL
        .wait_while(jobs, |jobs| jobs.is_empty())
        .unwrap()
        .pop_front()
        .unwrap();
    let mut peer = TcpStream::connect(("127.0.0.1", port))?;
    peer.set_nodelay(true)?;
    let head = format!(
        "POST /v1/traces HTTP/1.1\r\nHost: 127.0.0.1:{port}\r\nContent-Type: application/x-protobuf\r\n\
         Content-Length: {}\r\nConnection: close\r\n\r\n",
        body.len()
    );
    peer.write_all(head.as_bytes())?;
    peer.write_all(&body)?;
    if peer.read(&mut [0; 1_024])? > 0 {
        EXPORTED.fetch_add(SPANS, SeqCst);
    }
    Ok(())
}

/// The number behind this word, or 0.
fn number(text: &str, word: &str) -> usize {
    let rest = text.split_once(word).map_or("", |parts| parts.1);
    let digits = rest.split(|it: char| !it.is_ascii_digit()).next();
    digits.and_then(|digits| digits.parse().ok()).unwrap_or(0)
}

/// A post's body, whose head comes in one piece; none where the connection ends.
fn received(peer: &mut TcpStream) -> io::Result<Option<Vec<u8>>> {
    let mut room = [0; 8_192];
    let mut came = peer.read(&mut room[..4_096])?;
    let end = room[..came]
        .windows(4)
        .position(|part| part == b"\r\n\r\n")
        .map_or(came, |at| at + 4);
    let length = number(&String::from_utf8_lossy(&room[..end]), "Content-Length: ");
    let mut body = Vec::with_capacity(length);
    body.extend_from_slice(&room[end..came]);
    while came > 0 && body.len() < length {
        let most = room.len().min(length - body.len());
        came = peer.read(&mut room[..most])?;
        body.extend_from_slice(&room[..came]);
    }
    Ok((came > 0).then_some(body))
}

/// Takes posts until the connection ends.
fn receive(mut peer: TcpStream) -> io::Result<()> {
    peer.set_nodelay(true)?;
    while let Some(body) = received(&mut peer)? {
        let post = ACCEPTED.fetch_add(SPANS, SeqCst) / SPANS;
        let undecided = &UNDECIDED[post as usize % UNDECIDED.len()];
        undecided.lock().unwrap().push_back((Instant::now() + DECISION, body));
        peer.write_all(REPLY)?;
    }
    Ok(())
}

/// Serves until its input ends.
pub fn run(file: &str) -> io::Result<()> {
    let settings = fs::read_to_string(file)?;
    let [here, back_end] = ["listen = \"127.0.0.1:", "endpoint = \"127.0.0.1:"].map(|it| number(&settings, it) as u16);
    let listener = TcpListener::bind(("127.0.0.1", here))?;
    for undecided in &UNDECIDED {
        thread::spawn(|| turn(undecided));
    }
    for _ in 0..SENDERS {
        thread::spawn(move || while send(back_end).is_ok() {});
    }
    for _ in 0..number(&settings, "receivers = ") {
        let listener = listener.try_clone()?;
        thread::spawn(move || listener.incoming().flatten().for_each(|peer| drop(receive(peer))));
    }
    io::stdin().read_to_end(&mut Vec::new())?;
    println!("accepted={} exported={}", ACCEPTED.load(SeqCst), EXPORTED.load(SeqCst));
    Ok(())
}
