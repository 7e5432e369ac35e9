//! `plain_collector serve SETTINGS`: what one would write without more ado, to measure the collector beside it by
//! tests/load/measure.py. A thread a connection decodes each body by prost, and puts its spans under a lock into their
//! tenant's map of traces. One thread takes out the traces whose wait is over, keeps those with a status that is asked
//! for, which are all, and makes batches of them; four threads encode and post these, each once. At the end of its
//! input it sends what it holds, and prints each tenant's counters. It has no limits, no retries and no check of ids.

#[path = "../messages.rs"]
mod messages;

use messages::{ExportTraceServiceRequest, InstrumentationScope, Resource, ResourceSpans, ScopeSpans, Span};
use prost::Message;
use std::collections::{HashMap, VecDeque};
use std::io::{self, Read, Write};
use std::net::{TcpListener, TcpStream};
use std::sync::atomic::{AtomicBool, AtomicU64, Ordering::SeqCst};
use std::sync::mpsc::{sync_channel, Receiver, SyncSender};
use std::sync::{Arc, Mutex};
use std::time::{Duration, Instant};
use std::{env, fs, process, thread};

const SENDERS: usize = 4;
const REPLY: &[u8] = b"HTTP/1.1 200 OK\r\nContent-Length: 0\r\n\r\n";
const BAD: &[u8] = b"HTTP/1.1 400 Bad Request\r\nContent-Length: 0\r\n\r\n";

/// What stands round spans.
struct Origin {
    resource: Option<Resource>,
    resource_url: String,
    scope: Option<InstrumentationScope>,
    scope_url: String,
}

type Held = (Arc<Origin>, Span);

#[derive(Default)]
struct Traces {
    open: HashMap<Vec<u8>, Vec<Held>>,
    /// In the order of their first spans.
    due: VecDeque<(Instant, Vec<u8>)>,
}

struct Tenant {
    name: String,
    endpoint: String,
    wait: Duration,
    batch: usize,
    /// So long spans wait for a full batch.
    patience: Duration,
    traces: Mutex<Traces>,
    accepted: AtomicU64,
    exported: AtomicU64,
}

struct Job {
    tenant: Arc<Tenant>,
    spans: Vec<Held>,
}

/// The values of these lines of a settings file, without their quotes.
fn settings(text: &str) -> (String, Vec<Arc<Tenant>>) {
    let (mut listen, mut tenants) = (String::new(), Vec::<Tenant>::new());
    for (key, value) in text.lines().filter_map(|line| line.split_once(" = ")) {
        let value = value.trim_matches('"').to_owned();
        match (key, tenants.last_mut()) {
            ("listen", _) => listen = value,
            ("name", _) => tenants.push(Tenant {
                name: value,
                endpoint: String::new(),
                wait: Duration::from_secs(30),
                batch: 8192,
                patience: Duration::from_millis(200),
                traces: Mutex::default(),
                accepted: AtomicU64::new(0),
                exported: AtomicU64::new(0),
            }),
            ("endpoint", Some(tenant)) => tenant.endpoint = value,
            ("decision_wait_ms", Some(tenant)) => tenant.wait = Duration::from_millis(value.parse().expect("a wait")),
            ("timeout_ms", Some(tenant)) => tenant.patience = Duration::from_millis(value.parse().expect("a timeout")),
            ("send_batch_max_size", Some(tenant)) => tenant.batch = value.parse().expect("a size"),
            _ => {}
        }
    }
    (listen, tenants.into_iter().map(Arc::new).collect())
}

impl Tenant {
    fn take(&self, request: ExportTraceServiceRequest) {
        let mut count = 0;
        let now = Instant::now();
        let mut traces = self.traces.lock().expect("no thread fails with it");
        let traces = &mut *traces;
        for resource_spans in request.resource_spans {
            for scope_spans in resource_spans.scope_spans {
                let origin = Arc::new(Origin {
                    resource: resource_spans.resource.clone(),
                    resource_url: resource_spans.schema_url.clone(),
                    scope: scope_spans.scope,
                    scope_url: scope_spans.schema_url,
                });
                for span in scope_spans.spans {
                    count += 1;
                    if let Some(held) = traces.open.get_mut(&span.trace_id) {
                        held.push((origin.clone(), span));
                    } else {
                        traces.due.push_back((now + self.wait, span.trace_id.clone()));
                        traces.open.insert(span.trace_id.clone(), vec![(origin.clone(), span)]);
                    }
                }
            }
        }
        self.accepted.fetch_add(count, SeqCst);
    }

    /// The kept spans of traces whose wait was over then.
    fn decided(&self, then: Instant) -> Vec<Held> {
        let mut decided = Vec::new();
        let mut traces = self.traces.lock().expect("no thread fails with it");
        while traces.due.front().is_some_and(|(due, _)| *due <= then) {
            let (_, id) = traces.due.pop_front().expect("one is there");
            decided.extend(traces.open.remove(&id));
        }
        drop(traces);
        decided.retain(|spans| spans.iter().any(|(_, span)| (0..=2).contains(&status(span))));
        decided.into_iter().flatten().collect()
    }
}

fn status(span: &Span) -> i32 {
    span.status.as_ref().map_or(0, |status| status.code)
}

/// The next request of a connection: its tenant and its body.
fn next(peer: &mut TcpStream, held: &mut Vec<u8>) -> io::Result<Option<(String, Vec<u8>)>> {
    let mut room = [0; 65_536];
    let end = loop {
        if let Some(at) = held.windows(4).position(|part| part == b"\r\n\r\n") {
            break at + 4;
        }
        let count = peer.read(&mut room)?;
        if count == 0 {
            return Ok(None);
        }
        held.extend_from_slice(&room[..count]);
    };
    let (mut tenant, mut length) = (String::new(), 0);
    for (name, value) in String::from_utf8_lossy(&held[..end])
        .lines()
        .filter_map(|line| line.split_once(':'))
    {
        if name.eq_ignore_ascii_case("x-scope-orgid") {
            tenant = value.trim().to_owned();
        } else if name.eq_ignore_ascii_case("content-length") {
            length = value.trim().parse().unwrap_or(0);
        }
    }
    let mut body = held.split_off(end);
    held.clear();
    if body.len() > length {
        *held = body.split_off(length);
    }
    let came = body.len();
    body.resize(length, 0);
    peer.read_exact(&mut body[came..])?;
    Ok(Some((tenant, body)))
}

fn serve(mut peer: TcpStream, tenants: &HashMap<String, Arc<Tenant>>) -> io::Result<()> {
    peer.set_nodelay(true)?;
    let mut held = Vec::new();
    while let Some((name, body)) = next(&mut peer, &mut held)? {
        match (tenants.get(&name), ExportTraceServiceRequest::decode(&body[..])) {
            (Some(tenant), Ok(request)) => {
                tenant.take(request);
                peer.write_all(REPLY)?;
            }
            _ => peer.write_all(BAD)?,
        }
    }
    Ok(())
}

/// Each tenant's batches, until the end and nothing is held.
fn decide(tenants: &[Arc<Tenant>], ended: &AtomicBool, jobs: &SyncSender<Job>) {
    let mut pending: Vec<(Instant, Vec<Held>)> = tenants.iter().map(|_| (Instant::now(), Vec::new())).collect();
    loop {
        let (last, now) = (ended.load(SeqCst), Instant::now());
        for (tenant, (since, spans)) in tenants.iter().zip(&mut pending) {
            for held in tenant.decided(if last { now + tenant.wait } else { now }) {
                if spans.is_empty() {
                    *since = now;
                }
                spans.push(held);
                if spans.len() >= tenant.batch {
                    hand_over(tenant, spans, jobs);
                }
            }
            if !spans.is_empty() && (last || now >= *since + tenant.patience) {
                hand_over(tenant, spans, jobs);
            }
        }
        if last {
            return;
        }
        thread::sleep(Duration::from_millis(1));
    }
}

fn hand_over(tenant: &Arc<Tenant>, spans: &mut Vec<Held>, jobs: &SyncSender<Job>) {
    let (tenant, spans) = (tenant.clone(), std::mem::take(spans));
    jobs.send(Job { tenant, spans }).expect("senders wait for jobs");
}

/// Spans that stand one behind the other under one origin stay together.
fn request_of(spans: Vec<Held>) -> ExportTraceServiceRequest {
    let mut resource_spans: Vec<ResourceSpans> = Vec::new();
    let mut last: Option<Arc<Origin>> = None;
    for (origin, span) in spans {
        if !last.as_ref().is_some_and(|last| Arc::ptr_eq(last, &origin)) {
            resource_spans.push(ResourceSpans {
                resource: origin.resource.clone(),
                schema_url: origin.resource_url.clone(),
                scope_spans: vec![ScopeSpans {
                    scope: origin.scope.clone(),
                    schema_url: origin.scope_url.clone(),
                    spans: Vec::new(),
                }],
            });
            last = Some(origin);
        }
        let scope = resource_spans.last_mut().and_then(|last| last.scope_spans.last_mut());
        scope.expect("one was put").spans.push(span);
    }
    ExportTraceServiceRequest { resource_spans }
}

fn post(job: Job) -> io::Result<()> {
    let count = job.spans.len() as u64;
    let body = request_of(job.spans).encode_to_vec();
    let mut text = format!(
        "POST /v1/traces HTTP/1.1\r\nHost: {}\r\nContent-Type: application/x-protobuf\r\nContent-Length: {}\r\n\r\n",
        job.tenant.endpoint,
        body.len()
    )
    .into_bytes();
    text.extend_from_slice(&body);
    let mut peer = TcpStream::connect(&job.tenant.endpoint)?;
    peer.set_nodelay(true)?;
    peer.write_all(&text)?;
    let mut reply = Vec::new();
    peer.read_to_end(&mut reply)?;
    if reply.starts_with(b"HTTP/1.1 200 ") {
        job.tenant.exported.fetch_add(count, SeqCst);
    }
    Ok(())
}

fn send(jobs: &Mutex<Receiver<Job>>) {
    loop {
        let job = jobs.lock().expect("no thread fails with it").recv();
        let Ok(job) = job else { return };
        if let Err(fault) = post(job) {
            eprintln!("plain_collector: {fault}");
        }
    }
}

fn listen(listener: TcpListener, tenants: Arc<HashMap<String, Arc<Tenant>>>) {
    for peer in listener.incoming().flatten() {
        let tenants = tenants.clone();
        thread::spawn(move || {
            if let Err(fault) = serve(peer, &tenants) {
                eprintln!("plain_collector: {fault}");
            }
        });
    }
}

fn main() -> io::Result<()> {
    let words: Vec<String> = env::args().skip(1).collect();
    let [word, file] = words.as_slice() else {
        eprintln!("plain_collector serve SETTINGS");
        process::exit(2);
    };
    assert_eq!(word, "serve");
    let (address, tenants) = settings(&fs::read_to_string(file)?);
    let names = tenants
        .iter()
        .map(|tenant| (tenant.name.clone(), tenant.clone()))
        .collect();
    let listener = TcpListener::bind(address)?;
    thread::spawn(move || listen(listener, Arc::new(names)));
    let (jobs, waiting) = sync_channel(64);
    let (waiting, ended) = (Mutex::new(waiting), AtomicBool::new(false));
    thread::scope(|threads| {
        for _ in 0..SENDERS {
            threads.spawn(|| send(&waiting));
        }
        let (tenants, ended) = (&tenants, &ended);
        threads.spawn(move || decide(tenants, ended, &jobs));
        let end = io::copy(&mut io::stdin(), &mut io::sink());
        ended.store(true, SeqCst);
        end
    })?;
    for tenant in tenants {
        let (accepted, exported) = (tenant.accepted.load(SeqCst), tenant.exported.load(SeqCst));
        println!("report {} accepted={accepted} exported={exported}", tenant.name);
    }
    Ok(())
}
