//! As much of protobuf as the load and the back end want. Fields' numbers are those of tests/otlp/trace.proto.

pub const REQUEST_RESOURCE_SPANS: u64 = 1;
pub const RESOURCE_SPANS_SCOPE_SPANS: u64 = 2;
pub const SCOPE_SPANS_SPANS: u64 = 2;
pub const SPAN_START: u64 = 7;
pub const SPAN_END: u64 = 8;

/// Writes a varint.
pub fn put_varint(text: &mut Vec<u8>, mut value: u64) {
    while value >= 128 {
        text.push(value as u8 & 127 | 128);
        value >>= 7;
    }
    text.push(value as u8);
}

/// Writes a field of bytes.
pub fn put_piece(text: &mut Vec<u8>, field: u64, content: &[u8]) {
    put_varint(text, field << 3 | 2);
    put_varint(text, content.len() as u64);
    text.extend_from_slice(content);
}

/// Writes a whole number.
pub fn put_number(text: &mut Vec<u8>, field: u64, value: u64) {
    put_varint(text, field << 3);
    put_varint(text, value);
}

/// Writes a fixed64.
pub fn put_fixed(text: &mut Vec<u8>, field: u64, value: u64) {
    put_varint(text, field << 3 | 1);
    text.extend_from_slice(&value.to_le_bytes());
}

/// The contents of all fields of bytes with this number. Groups don't stand in what is read here.
pub fn pieces(text: &[u8], field: u64) -> Vec<&[u8]> {
    contents(text, field << 3 | 2)
}

/// The last fixed64 with this number.
pub fn fixed(text: &[u8], field: u64) -> Option<u64> {
    let bytes = contents(text, field << 3 | 1).pop()?;
    Some(u64::from_le_bytes(bytes.try_into().ok()?))
}

/// What stands behind each tag like this one.
fn contents(mut text: &[u8], wanted: u64) -> Vec<&[u8]> {
    let mut found = Vec::new();
    while !text.is_empty() {
        let tag = take_varint(&mut text);
        let length = match tag & 7 {
            0 => {
                take_varint(&mut text);
                0
            }
            1 => 8,
            2 => take_varint(&mut text) as usize,
            _ => 4,
        };
        let (content, rest) = text.split_at(length.min(text.len()));
        if tag == wanted {
            found.push(content);
        }
        text = rest;
    }
    found
}

fn take_varint(text: &mut &[u8]) -> u64 {
    let mut value = 0;
    let mut shift = 0;
    while let Some((byte, rest)) = text.split_first() {
        value |= u64::from(byte & 127) << shift;
        *text = rest;
        shift += 7;
        if *byte < 128 || shift > 63 {
            break;
        }
    }
    value
}
