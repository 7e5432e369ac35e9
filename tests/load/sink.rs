//! `load sink`: a back end that takes all that it is sent. It says `port N` once it listens, and for each line of its
//! input how many posts, bytes and spans have come; for a line `ages` also how old the first span of each post was, in
//! microseconds since it began, of all posts since the last such line: half of them and 99 of 100 weren't older, and
//! none than the last number. It ends with its input. Each connection is answered once and closed.

use crate::http::Reader;
use crate::shares::within;
use crate::wire::{
    fixed, pieces, REQUEST_RESOURCE_SPANS, RESOURCE_SPANS_SCOPE_SPANS, SCOPE_SPANS_SPANS, SPAN_START,
};
use std::io::{self, BufRead, Write};
use std::net::{TcpListener, TcpStream};
use std::sync::atomic::{AtomicU64, Ordering::SeqCst};
use std::sync::Mutex;
use std::thread;
use std::time::SystemTime;

static POSTS: AtomicU64 = AtomicU64::new(0);
static BYTES: AtomicU64 = AtomicU64::new(0);
static SPANS: AtomicU64 = AtomicU64::new(0);
/// Of each post since they were asked for.
static AGES: Mutex<Vec<u64>> = Mutex::new(Vec::new());

fn spans_in(body: &[u8]) -> Vec<&[u8]> {
    let mut found = Vec::new();
    for resource_spans in pieces(body, REQUEST_RESOURCE_SPANS) {
        for scope_spans in pieces(resource_spans, RESOURCE_SPANS_SCOPE_SPANS) {
            found.extend(pieces(scope_spans, SCOPE_SPANS_SPANS));
        }
    }
    found
}

/// How many microseconds ago a span says that it began.
fn age(span: &[u8]) -> Option<u64> {
    let now = SystemTime::now().duration_since(SystemTime::UNIX_EPOCH).ok()?;
    let start = fixed(span, SPAN_START)?;
    Some((now.as_nanos() as u64).saturating_sub(start) / 1000)
}

fn taken_ages() -> Vec<u64> {
    let mut ages = std::mem::take(&mut *AGES.lock().expect("no thread fails with it"));
    ages.sort_unstable();
    ages
}

fn serve(peer: TcpStream) -> io::Result<()> {
    let Some(post) = Reader::new(&peer).next()? else {
        return Ok(());
    };
    let spans = spans_in(&post.body);
    let oldest = spans.first().and_then(|span| age(span));
    AGES.lock().expect("no thread fails with it").extend(oldest);
    BYTES.fetch_add(post.body.len() as u64, SeqCst);
    SPANS.fetch_add(spans.len() as u64, SeqCst);
    POSTS.fetch_add(1, SeqCst);
    (&peer).write_all(b"HTTP/1.1 200 OK\r\nContent-Length: 0\r\nConnection: close\r\n\r\n")
}

/// Listens until its input ends.
pub fn run() -> io::Result<()> {
    let listener = TcpListener::bind("127.0.0.1:0")?;
    println!("port {}", listener.local_addr()?.port());
    thread::spawn(move || {
        for peer in listener.incoming().flatten() {
            thread::spawn(move || {
                if let Err(fault) = serve(peer) {
                    eprintln!("sink: {fault}");
                }
            });
        }
    });
    for line in io::stdin().lock().lines() {
        let (posts, bytes, spans) = (POSTS.load(SeqCst), BYTES.load(SeqCst), SPANS.load(SeqCst));
        print!("posts={posts} bytes={bytes} spans={spans}");
        if line? == "ages" {
            let ages = taken_ages();
            let (half, most_99, most) = (within(&ages, 50), within(&ages, 99), within(&ages, 100));
            print!(" half={half} most_99={most_99} most={most}");
        }
        println!();
    }
    Ok(())
}
