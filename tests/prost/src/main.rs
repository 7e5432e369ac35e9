//! `prost_bench FILE ROUNDS [held]`: decodes the request body in that file so many times and encodes what was decoded, as
//! prost does it, and prints how long that took and whether what was encoded is the body. With `held` all that was decoded
//! is held until the end. What is measured against it is in docs/BENCHMARKS.md.

mod messages;

use messages::ExportTraceServiceRequest;
use prost::Message;
use std::time::Instant;
use std::{env, fs, process};

/// What was encoded last.
fn rounds_of(body: &[u8], rounds: u32, held: bool) -> Result<Vec<u8>, prost::DecodeError> {
    let mut kept = Vec::new();
    let mut text = Vec::new();
    for _ in 0..rounds {
        let request = ExportTraceServiceRequest::decode(body)?;
        text = request.encode_to_vec();
        if held {
            kept.push(request);
        }
    }
    Ok(text)
}

fn main() {
    let args: Vec<String> = env::args().skip(1).collect();
    let (path, rounds) = match args.as_slice() {
        [path, rounds] | [path, rounds, _] => (path, rounds.parse().expect("a number of rounds")),
        _ => {
            eprintln!("prost_bench FILE ROUNDS [held]");
            process::exit(2);
        }
    };
    let body = fs::read(path).expect("a body");
    let start = Instant::now();
    let text = rounds_of(&body, rounds, args.len() == 3).expect("a request");
    let nanos = start.elapsed().as_nanos();
    println!("prost: {} bytes, {nanos} ns, the same as the body: {}", text.len(), text == body);
}
