//! Blocks of DAG-PB, by their data model.

use crate::answer::node_answer;
use crate::calls::{dagcbor_from_node, dagcbor_node_links, dagcbor_to_node};
use crate::item::Cids;
use crate::{NodeRefusal, NodeRefused, Refusal};
#[cfg(feature = "alloc")]
use {
    crate::calls::{filled, Links},
    alloc::vec::Vec,
};

/// Puts the links of a block of DAG-PB into the room, whatever their names are: each with a
/// byte before it. As much room as the node has bytes is enough.
pub fn node_links_into<'a>(node: &[u8], room: &'a mut [u8]) -> Result<Cids<'a>, NodeRefused> {
    let (mut needed, mut place) = (0, 0);
    let code = dagcbor_node_links(node, room, &mut needed, &mut place);
    node_answer(code, needed, place)?;
    let no_room = NodeRefusal::NoBlock(Refusal::NoRoom { needed });
    room.get(..needed).map(Cids).ok_or(no_room.at(place))
}

/// Puts the data model of a block of DAG-PB into the room, as a block of DAG-CBOR: a map of `Links`
/// and, if the node has some, `Data`. Each link is a map of `Hash`, and of `Name` and `Tsize` if it
/// has them.
pub fn from_node_into<'a>(node: &[u8], room: &'a mut [u8]) -> Result<&'a [u8], NodeRefused> {
    let (mut needed, mut place) = (0, 0);
    let code = dagcbor_from_node(node, room, &mut needed, &mut place);
    node_answer(code, needed, place)?;
    Ok(&room[..needed])
}

/// Puts the one canonical block of DAG-PB whose data model the block of DAG-CBOR has into the room. As
/// much room as the block has bytes is enough.
pub fn to_node_into<'a>(block: &[u8], room: &'a mut [u8]) -> Result<&'a [u8], NodeRefusal> {
    let mut needed = 0;
    let code = dagcbor_to_node(block, room, &mut needed);
    node_answer(code, needed, 0)?;
    Ok(&room[..needed])
}

/// Returns the data model of a block of DAG-PB, as a block of DAG-CBOR, which `from_slice` reads as a
/// type.
///
/// ```
/// let block = dagcbor::from_node(b"\x0a\x02hi").unwrap();
/// assert_eq!(block, b"\xa2\x64Data\x42hi\x65Links\x80");
/// assert_eq!(dagcbor::to_node(&block).unwrap(), b"\x0a\x02hi");
/// ```
#[cfg(feature = "alloc")]
pub fn from_node(node: &[u8]) -> Result<Vec<u8>, NodeRefused> {
    let mut place = 0;
    let (block, code) = filled(2 * node.len() + 64, |out, needed| {
        dagcbor_from_node(node, out, needed, &mut place)
    });
    node_answer(code, 0, place)?;
    Ok(block)
}

/// The links of a block of DAG-PB, in its order, whatever their names are.
#[cfg(feature = "alloc")]
pub fn node_links(node: &[u8]) -> Result<Links, NodeRefused> {
    let mut place = 0;
    let (packed, code) = filled(node.len(), |out, needed| {
        dagcbor_node_links(node, out, needed, &mut place)
    });
    node_answer(code, 0, place)?;
    Ok(Links(packed))
}

/// Returns the one canonical block of DAG-PB whose data model the block of DAG-CBOR has, as `to_vec`
/// writes it. Links that are not sorted by the bytes of their names are refused.
#[cfg(feature = "alloc")]
pub fn to_node(block: &[u8]) -> Result<Vec<u8>, NodeRefusal> {
    let (node, code) = filled(block.len(), |out, needed| {
        dagcbor_to_node(block, out, needed)
    });
    node_answer(code, 0, 0)?;
    Ok(node)
}
