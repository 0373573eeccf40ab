//! The data of DAG-JSON.

use base64_of::decoded;
use dagcbor::Ipld;
use serde_json::Value;

pub fn data_of(found: &Value) -> Result<Ipld, Box<dyn std::error::Error>> {
    Ok(match found {
        Value::Null => Ipld::Null,
        Value::Bool(it) => Ipld::Bool(*it),
        Value::Number(it) => Ipld::Integer(it.to_string().parse()?),
        Value::String(it) => Ipld::String(it.clone()),
        Value::Array(them) => Ipld::List(them.iter().map(data_of).collect::<Result<_, _>>()?),
        Value::Object(map) => match (map.len(), map.get("/")) {
            (1, Some(Value::String(cid))) => Ipld::Link(cid.parse()?),
            (1, Some(bytes)) => Ipld::Bytes(decoded(bytes["bytes"].as_str().ok_or("no bytes")?)),
            _ => Ipld::Map(
                map.iter()
                    .map(|(key, it)| Ok((key.clone(), data_of(it)?)))
                    .collect::<Result<_, Box<dyn std::error::Error>>>()?,
            ),
        },
    })
}

mod base64_of {
    const DIGITS: &[u8] = b"ABCDEFGHIJKLMNOPQRSTUVWXYZabcdefghijklmnopqrstuvwxyz0123456789+/";

    pub fn decoded(text: &str) -> Vec<u8> {
        let bit = |at: usize| {
            DIGITS
                .iter()
                .position(|it| *it == text.as_bytes()[at / 6])
                .unwrap()
                >> (5 - at % 6)
                & 1
        };
        (0..text.len() * 6 / 8)
            .map(|byte| (0..8).fold(0, |all, at| all * 2 + bit(8 * byte + at) as u8))
            .collect()
    }
}
