//! Untried here. serde_ipld_dagcbor, whose port this repository is: in this folder `cargo build --release`, and then
//!     conformance/run conformance/peers/untried/serde_ipld_dagcbor/target/release/peer

#[path = "../../../lines.rs"]
mod lines;

use ipld_core::ipld::Ipld;

fn main() -> std::io::Result<()> {
    lines::serve(|_, block| {
        let data: Ipld = serde_ipld_dagcbor::from_slice(block).map_err(|_| "error")?;
        let again = serde_ipld_dagcbor::to_vec(&data).map_err(|_| "to write")?;
        Ok(lines::hex(&again))
    })
}
