//! Blocks of DAG-PB and their data model, over the vectors of all callers.

use dagcbor::{from_node, from_node_into, node_links, node_links_into, to_node, to_node_into};
use dagcbor::{NodeRefusal, Refusal};

fn from_hex(text: &str) -> Vec<u8> {
    let digits: Vec<u8> = text
        .chars()
        .filter_map(|it| it.to_digit(16))
        .map(|it| it as u8)
        .collect();
    digits.chunks(2).map(|it| it[0] * 16 + it[1]).collect()
}

fn rows_of(table: &str) -> Vec<Vec<&str>> {
    let rows: Vec<Vec<&str>> = table.lines().map(|it| it.split(' ').collect()).collect();
    assert!(rows.len() > 30);
    rows
}

fn node_refusal(code: &str) -> Option<NodeRefusal> {
    Some(match code.parse::<i32>().unwrap() {
        -53 => NodeRefusal::Truncated,
        -54 => NodeRefusal::InvalidVarint,
        -55 => NodeRefusal::UnexpectedField,
        -56 => NodeRefusal::NoHash,
        -57 => NodeRefusal::InvalidCid,
        -58 => NodeRefusal::NameNotText,
        -59 => NodeRefusal::NotANode,
        -60 => NodeRefusal::UnsortedLinks,
        _ => return None,
    })
}

#[test]
fn nodes_have_a_data_model() {
    for row in rows_of(include_str!("../../tables/nodes.txt")) {
        let node = from_hex(row[0]);
        match node_links(&node) {
            Ok(links) => {
                let cids = row[5].split(',').filter(|it| *it != "-").map(from_hex);
                assert!(links.iter().map(|it| it.as_bytes().to_vec()).eq(cids));
                let needed: usize = links.iter().map(|it| 1 + it.as_bytes().len()).sum();
                let refused = node_links_into(&node, &mut []).err();
                let wanted = NodeRefusal::NoBlock(Refusal::NoRoom { needed });
                assert_eq!(refused.map(|it| it.refusal), (needed > 0).then_some(wanted));
            }
            Err(refused) => assert_eq!(Some(refused.refusal), node_refusal(row[4])),
        }
        match from_node(&node) {
            Ok(block) => {
                assert_eq!((row[1], block), ("0", from_hex(row[3])));
                let needed = row[3].len() / 2;
                let refused = from_node_into(&node, &mut vec![0; needed - 1]).unwrap_err();
                let wanted = NodeRefusal::NoBlock(Refusal::NoRoom { needed });
                assert_eq!(refused.refusal, wanted);
            }
            Err(refused) => {
                assert_eq!(Some(refused.refusal), node_refusal(row[1]));
                assert_eq!(refused.place.to_string(), row[2]);
            }
        }
    }
}

#[test]
fn data_models_have_a_node() {
    for row in rows_of(include_str!("../../tables/models.txt")) {
        let block = from_hex(row[0]);
        match to_node(&block) {
            Ok(node) => {
                assert_eq!((row[1], &node), ("0", &from_hex(row[2])));
                assert_eq!(
                    to_node_into(&block, &mut vec![0; node.len()]).unwrap(),
                    node
                );
            }
            Err(NodeRefusal::NoBlock(refusal)) => {
                assert_eq!(node_refusal(row[1]), None);
                assert_eq!(dagcbor::check(&block).unwrap_err().refusal, refusal);
            }
            Err(refusal) => assert_eq!(Some(refusal), node_refusal(row[1])),
        }
    }
}
