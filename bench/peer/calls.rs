//! Does one call of serde_cbor this many times on the block on standard input, and prints how many of them succeeded.

use serde::de::{Deserialize, DeserializeOwned, Deserializer, Error, IgnoredAny, Visitor};
use serde::ser::{Serialize, Serializer};
use serde_cbor::tags::Tagged;
use serde_cbor::{Value, from_reader, from_slice, to_vec};
use serde_derive::{Deserialize, Serialize};
use std::fmt;
use std::hint::black_box;
use std::io::{self, Read};

/// The bytes after the tag of a link.
struct Link(Vec<u8>);

struct LinkVisitor;

impl Visitor<'_> for LinkVisitor {
    type Value = Link;

    fn expecting(&self, out: &mut fmt::Formatter) -> fmt::Result {
        out.write_str("bytes")
    }

    fn visit_bytes<E: Error>(self, bytes: &[u8]) -> Result<Link, E> {
        Ok(Link(bytes.to_vec()))
    }

    fn visit_byte_buf<E: Error>(self, bytes: Vec<u8>) -> Result<Link, E> {
        Ok(Link(bytes))
    }
}

impl<'de> Deserialize<'de> for Link {
    fn deserialize<D: Deserializer<'de>>(from: D) -> Result<Link, D::Error> {
        from.deserialize_bytes(LinkVisitor)
    }
}

impl Serialize for Link {
    fn serialize<S: Serializer>(&self, to: S) -> Result<S::Ok, S::Error> {
        to.serialize_bytes(&self.0)
    }
}

/// The fields in the order of their keys, which serde keeps.
#[derive(Deserialize, Serialize)]
struct Record {
    seq: u32,
    link: Tagged<Link>,
    name: String,
    tags: Vec<u16>,
}

fn repeated(times: u64, call: impl Fn() -> bool) -> u64 {
    (0..times).filter(|_| call()).count() as u64
}

fn reads<T: DeserializeOwned>(block: &[u8], times: u64) -> u64 {
    repeated(times, || black_box(from_slice::<T>(black_box(block))).is_ok())
}

fn reads_source<T: DeserializeOwned>(block: &[u8], times: u64) -> u64 {
    repeated(times, || black_box(from_reader::<T, _>(black_box(block))).is_ok())
}

fn writes<T: DeserializeOwned + Serialize>(block: &[u8], times: u64) -> u64 {
    match from_slice::<T>(block) {
        Ok(value) => repeated(times, || black_box(to_vec(black_box(&value))).is_ok()),
        Err(_) => 0,
    }
}

fn successes(name: &str, block: &[u8], times: u64) -> Option<u64> {
    Some(match name {
        "from_slice::<IgnoredAny>" => reads::<IgnoredAny>(block, times),
        "from_slice::<Value>" => reads::<Value>(block, times),
        "from_slice::<Record>" => reads::<Record>(block, times),
        "from_reader::<Record>" => reads_source::<Record>(block, times),
        "to_vec::<Value>" => writes::<Value>(block, times),
        "to_vec::<Record>" => writes::<Record>(block, times),
        _ => return None,
    })
}

fn main() -> io::Result<()> {
    let words: Vec<String> = std::env::args().skip(1).collect();
    let mut block = Vec::new();
    io::stdin().read_to_end(&mut block)?;
    let count = match words.as_slice() {
        [name, times] => times.parse().ok().and_then(|times| successes(name, &block, times)),
        _ => None,
    };
    match count {
        Some(count) => println!("{count}"),
        None => return Err(io::Error::from(io::ErrorKind::InvalidInput)),
    }
    Ok(())
}
