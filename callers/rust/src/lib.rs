//! DAG-CBOR by a proved library.
//!
//! ```
//! use dagcbor::{check, spell, tape, Item, Kind, Refusal};
//!
//! let block = b"\xa2\x64text\x62hi\x64year\x17";
//! assert_eq!(check(block), Ok(Kind::Map));
//! assert_eq!(check(b"\x18\x17"), Err(Refusal::NonMinimal.at(1)));
//!
//! let items: Vec<Item> = tape(block)?.items().collect();
//! assert_eq!(items[0], Item::Map(2));
//! assert_eq!(items[1..3], [Item::Text("text"), Item::Text("hi")]);
//! assert_eq!(items[3..], [Item::Text("year"), Item::Integer(23)]);
//! assert_eq!(spell(&items)?, block);
//! # Ok::<(), Refusal>(())
//! ```
//!
//! With the feature `serde`, `from_slice` reads a type and `to_vec` writes one; `Ipld` is data
//! without types, and `ipld` spells it. `de`, `ser` and `codec` have the same names as in the crate
//! `serde_ipld_dagcbor`. [`Car`] reads a CAR file in memory, [`CarReader`] one
//! that a reader gives, and [`CarWriter`] writes one.
//!
//! Without the feature `alloc`, which `std` brings, there are only the calls that take room:
//! [`tape_into`], [`links_into`] and [`spell_into`].
//!
//! A thread needs 128 KB of stack for a call, and 1 MB for one that reads or writes an `Ipld` or
//! another type that nests. The processor is an x86-64-v2.

#![cfg_attr(not(feature = "std"), no_std)]
#![warn(missing_docs, unsafe_op_in_unsafe_fn)]
#![deny(unsafe_code)] // except for the calls of the library

#[cfg(feature = "alloc")]
extern crate alloc;

mod answer;
mod calls;
mod car;
mod cid;
mod item;
mod node;
mod paths;
#[cfg(feature = "std")]
mod streams;

#[cfg(all(feature = "serde", feature = "std"))]
pub mod codec;
#[cfg(feature = "serde")]
pub mod de;
#[cfg(feature = "serde")]
mod error;
#[cfg(feature = "serde")]
mod ipld;
#[cfg(feature = "serde")]
pub mod ser;

pub use answer::{CarRefusal, CarRefused, Kind, NodeRefusal, NodeRefused, Refusal, Refused};
pub use calls::{check, links_into, name, spell_into, tape_into, MOST_OF_CID};
#[cfg(feature = "alloc")]
pub use calls::{links, spell, take_tape, tape, Links, Tape};
pub use car::{verify, Car, Section, Verdict};
pub use cid::Cid;
#[cfg(all(feature = "serde", feature = "std"))]
pub use de::{from_reader, from_reader_once, iter_from_reader};
#[cfg(feature = "serde")]
pub use de::{from_slice, take_from_slice};
#[cfg(feature = "serde")]
pub use error::Error;
#[cfg(feature = "serde")]
pub use ipld::{from_ipld, to_ipld, Ipld};
pub use item::{Cids, Item, Items, Token};
#[cfg(feature = "alloc")]
pub use node::{from_node, node_links, to_node};
pub use node::{from_node_into, node_links_into, to_node_into};
pub use paths::{find, find_segments};
#[cfg(feature = "alloc")]
pub use paths::{resolve, resolve_segments, Unresolved};
#[cfg(feature = "serde")]
pub use ser::to_vec;
#[cfg(all(feature = "serde", feature = "std"))]
pub use ser::to_writer;
#[cfg(feature = "std")]
pub use streams::{CarError, CarReader, CarWriter};

#[cfg(all(doctest, feature = "serde"))]
#[doc = include_str!("../README.md")]
struct Readme;

/// What the macro `ipld` names.
#[cfg(feature = "serde")]
#[doc(hidden)]
pub mod __data {
    pub use alloc::{collections::BTreeMap, vec::Vec};
}
