//! CIDs as text, and CAR files.

use crate::lines::hex;
use dagcbor::{Car, Cid};
use std::error::Error;

pub fn cid_text(text: &[u8]) -> Result<String, Box<dyn Error>> {
    let cid: Cid = std::str::from_utf8(text)?.parse()?;
    Ok(format!("{} {cid}", hex(cid.as_bytes())))
}

pub fn files(file: &[u8]) -> Result<String, Box<dyn Error>> {
    let car = Car::new(file)?;
    let roots = joined(car.roots().iter());
    let cids: Vec<Cid> = car
        .map(|it| it.map(|it| it.cid))
        .collect::<Result<_, _>>()?;
    Ok(format!("{roots} {}", joined(cids.into_iter())))
}

fn joined(cids: impl Iterator<Item = Cid>) -> String {
    let texts: Vec<String> = cids.map(|it| it.to_string()).collect();
    if texts.is_empty() {
        "-".to_string()
    } else {
        texts.join(",")
    }
}
