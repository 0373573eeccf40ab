//! serde_cbor: `from_slice` of a `Value`, which refuses trailing data, and `to_vec`, whose maps are ordered.

#[path = "../../lines.rs"]
mod lines;

fn main() -> std::io::Result<()> {
    lines::serve(|_, block| {
        serde_cbor::from_slice::<serde_cbor::Value>(block)
            .and_then(|data| serde_cbor::to_vec(&data))
            .map(|again| lines::hex(&again))
            .map_err(|error| format!("{:?}", error.classify()))
    })
}
