//! Our package for Rust: blocks, and data to be written; around.rs has CIDs as text and CAR files.

mod around;
mod json;
#[path = "../../lines.rs"]
mod lines;

use dagcbor::{from_slice, to_vec, Ipld};

fn answer(subject: &str, given: &[u8]) -> Result<String, Box<dyn std::error::Error>> {
    Ok(match subject {
        "writing" => lines::hex(&to_vec(&json::data_of(&serde_json::from_slice(given)?)?)?),
        "cid-texts" => around::cid_text(given)?,
        "files" => around::files(given)?,
        _ => lines::hex(&to_vec(&from_slice::<Ipld>(given)?)?),
    })
}

fn main() -> std::io::Result<()> {
    lines::serve(|subject, given| answer(subject, given).map_err(|error| error.to_string()))
}
