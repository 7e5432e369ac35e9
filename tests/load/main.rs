//! Load for the collector as a service, a back end for it, and what stands in its place: what `load post`, `load sink`
//! and `load serve` do stands in post.rs, sink.rs and floor.rs. measure.py builds it, and starts the first two, and so
//! do the others that stand beside it.

mod floor;
mod http;
mod post;
mod shares;
mod sink;
mod wire;

use post::Load;
use std::time::Duration;
use std::{env, io, process};

fn load_of(words: &[String]) -> Option<Load> {
    let each = words.last().is_some_and(|word| word == "each");
    let words: Vec<u32> = words.iter().filter_map(|word| word.parse().ok()).collect();
    let (&[port, tenants, connections, rate, seconds, spans], rest) = words.split_first_chunk()?;
    Some(Load {
        port: port.try_into().ok()?,
        first: rest.first().map_or(0, |first| *first as usize),
        tenants: tenants as usize,
        connections: connections as usize,
        rate,
        time: Duration::from_secs(seconds.into()),
        spans: spans as usize,
        each,
    })
}

fn main() -> io::Result<()> {
    let words: Vec<String> = env::args().skip(1).collect();
    match words.split_first() {
        Some((word, [])) if word == "sink" => return sink::run(),
        Some((word, [file])) if word == "serve" => return floor::run(file),
        Some((word, rest)) if word == "post" => {
            if let Some(load) = load_of(rest) {
                return post::run(load);
            }
        }
        _ => {}
    }
    eprintln!("load sink | load serve SETTINGS | load post PORT TENANTS CONNECTIONS RATE SECONDS SPANS [FIRST] [each]");
    process::exit(2)
}
