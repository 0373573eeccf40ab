//! ciborium-ll: each head of its `Decoder`, given to its `Encoder`; items are counted by its caller, who takes no indefinite lengths here.
#[path = "../../lines.rs"]
mod lines;
use ciborium_ll::{Decoder, Encoder, Header::*};
fn answer(block: &[u8]) -> Option<String> {
    let (mut rest, mut again, mut left) = (block, Vec::new(), 1);
    while left > 0 {
        let mut decoder = Decoder::from(rest);
        let header = decoder.pull().ok().filter(|it| *it != Break)?;
        Encoder::from(&mut again).push(header).ok()?;
        let (items, payload) = match header {
            Bytes(count) | Text(count) => (0, count?),
            Array(count) => (count? as i128, 0),
            Map(count) => (2 * count? as i128, 0),
            it => (i128::from(matches!(it, Tag(_))), 0),
        };
        again.extend(rest[decoder.offset()..].get(..payload)?);
        (rest, left) = (&rest[decoder.offset() + payload..], left + items - 1);
    }
    rest.is_empty().then(|| lines::hex(&again))
}

fn main() -> std::io::Result<()> {
    lines::serve(|_, block| answer(block).ok_or_else(String::new))
}
