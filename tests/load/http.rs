//! As much of HTTP/1.1 as the load and the back end want: a head, and as many bytes as its Content-Length says.

use std::io::{Error, ErrorKind, Read, Result};

/// A message's first line, and its body.
pub struct Message {
    pub start: String,
    pub body: Vec<u8>,
}

/// Reads messages one after the other, and keeps what came behind the last one.
pub struct Reader<R> {
    inner: R,
    held: Vec<u8>,
}

impl<R: Read> Reader<R> {
    pub fn new(inner: R) -> Self {
        Reader {
            inner,
            held: Vec::new(),
        }
    }

    /// The next message; none where the input ends before it begins.
    pub fn next(&mut self) -> Result<Option<Message>> {
        let mut seen = 0;
        let head_end = loop {
            if let Some(at) = find(&self.held[seen..], b"\r\n\r\n") {
                break seen + at;
            }
            seen = self.held.len().saturating_sub(3);
            if !self.more()? {
                return if self.held.is_empty() {
                    Ok(None)
                } else {
                    Err(Error::from(ErrorKind::UnexpectedEof))
                };
            }
        };
        let head = String::from_utf8_lossy(&self.held[..head_end]).into_owned();
        let body_start = head_end + 4;
        let end = body_start + content_length(&head);
        while self.held.len() < end {
            if !self.more()? {
                return Err(Error::from(ErrorKind::UnexpectedEof));
            }
        }
        let rest = self.held.split_off(end);
        let body = std::mem::replace(&mut self.held, rest).split_off(body_start);
        let start = head.lines().next().unwrap_or("").to_owned();
        Ok(Some(Message { start, body }))
    }

    /// Whether more came.
    fn more(&mut self) -> Result<bool> {
        let mut room = [0; 65_536];
        let count = self.inner.read(&mut room)?;
        self.held.extend_from_slice(&room[..count]);
        Ok(count > 0)
    }
}

fn find(text: &[u8], wanted: &[u8]) -> Option<usize> {
    text.windows(wanted.len()).position(|part| part == wanted)
}

fn content_length(head: &str) -> usize {
    head.lines()
        .filter_map(|line| line.split_once(':'))
        .find(|(name, _)| name.eq_ignore_ascii_case("content-length"))
        .and_then(|(_, value)| value.trim().parse().ok())
        .unwrap_or(0)
}
