//! The program `dagcbor` as it would be over serde_cbor: each line of hexadecimal text is judged, or its links are listed. Its
//! answers are those of `dagcbor` for good lines. serde_cbor is not strict, and a CID is not looked at.

use serde::de::IgnoredAny;
use serde_cbor::{Deserializer, Value, from_slice};
use std::io::{self, BufRead, BufWriter, Write};

fn digit(letter: u8) -> Option<u8> {
    match letter {
        b'0'..=b'9' => Some(letter - b'0'),
        b'a'..=b'f' => Some(letter - b'a' + 10),
        b'A'..=b'F' => Some(letter - b'A' + 10),
        _ => None,
    }
}

fn decode(line: &[u8], block: &mut Vec<u8>) -> Option<()> {
    block.clear();
    block.reserve(line.len() / 2);
    let pairs = line.chunks_exact(2);
    if !pairs.remainder().is_empty() {
        return None;
    }
    for pair in pairs {
        block.push(digit(pair[0])? << 4 | digit(pair[1])?);
    }
    Some(())
}

fn kind(block: &[u8]) -> &'static str {
    match block.first().map_or(0, |first| first >> 5) {
        0 | 1 => "integer",
        2 => "bytes",
        3 => "string",
        4 => "list",
        5 => "map",
        6 => "link",
        _ if block[0] == 0xf6 => "null",
        _ => "bool",
    }
}

fn check(block: &[u8], out: &mut impl Write) -> io::Result<()> {
    match from_slice::<IgnoredAny>(block) {
        Ok(_) => writeln!(out, "ok {}", kind(block)),
        Err(_) => writeln!(out, "refused"),
    }
}

/// The links of the value, left to right, without the zero byte before each.
fn gather<'a>(value: &'a Value, links: &mut Vec<&'a [u8]>) {
    match value {
        Value::Array(items) => items.iter().for_each(|item| gather(item, links)),
        Value::Map(entries) => entries.values().for_each(|value| gather(value, links)),
        Value::Tag(42, inner) => {
            if let Value::Bytes(bytes) = &**inner {
                links.push(bytes.get(1..).unwrap_or_default());
            }
        }
        _ => {}
    }
}

fn write_links(links: &[&[u8]], out: &mut impl Write) -> io::Result<()> {
    const DIGITS: &[u8; 16] = b"0123456789abcdef";
    for (place, link) in links.iter().enumerate() {
        if place > 0 {
            out.write_all(b" ")?;
        }
        for byte in *link {
            out.write_all(&[DIGITS[usize::from(byte >> 4)], DIGITS[usize::from(byte & 15)]])?;
        }
    }
    out.write_all(if links.is_empty() { b"none\n" } else { b"\n" })
}

fn links(block: &[u8], out: &mut impl Write) -> io::Result<()> {
    let mut values = Deserializer::from_slice(block).into_iter::<Value>();
    match values.next() {
        Some(Ok(value)) => {
            let mut links = Vec::new();
            gather(&value, &mut links);
            write_links(&links, out)
        }
        _ => writeln!(out, "refused"),
    }
}

fn main() -> io::Result<()> {
    let command = std::env::args().nth(1);
    let (mut input, mut out) = (io::stdin().lock(), BufWriter::new(io::stdout().lock()));
    let (mut line, mut block) = (Vec::new(), Vec::new());
    while input.read_until(b'\n', &mut line)? > 0 {
        match (decode(line.trim_ascii_end(), &mut block), command.as_deref()) {
            (None, _) => writeln!(out, "refused hex")?,
            (_, Some("check")) => check(&block, &mut out)?,
            (_, Some("links")) => links(&block, &mut out)?,
            _ => return Err(io::Error::from(io::ErrorKind::InvalidInput)),
        }
        line.clear();
    }
    out.flush()
}
