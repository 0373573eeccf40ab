use dagcbor::{find, find_segments, name, resolve, resolve_segments, spell};
use dagcbor::{Cid, Item, Unresolved, Verdict};
use std::{collections::HashMap, convert::Infallible};

fn from_hex(text: &str) -> Vec<u8> {
    let text = text.trim_matches('-');
    (0..text.len()).step_by(2).map(|at| u8::from_str_radix(&text[at..at + 2], 16).unwrap()).collect()
}

#[test]
fn the_table_holds() {
    let rows: Vec<Vec<&str>> =
        include_str!("../../tables/paths.txt").lines().map(|it| it.split(' ').collect()).collect();
    for row in &rows {
        let (block, path) = (from_hex(row[0]), from_hex(row[1]));
        let path = match String::from_utf8(path) {
            Ok(path) => path,
            Err(_) => {
                assert_eq!(row[2], "-37");
                continue;
            }
        };
        let found = find(&block, &path);
        if row[2].starts_with('-') {
            assert!(found.is_err(), "{row:?}");
            continue;
        }
        let [begin, end, passed] = [3, 4, 5].map(|it: usize| row[it].parse::<usize>().unwrap());
        assert_eq!(found, Ok((passed == path.len()).then_some(&block[begin..end])), "{row:?}");
    }
    assert!(rows.len() > 1000);
}

#[test]
fn the_table_of_segments_holds() {
    let table = include_str!("../../tables/segments.txt");
    let rows: Vec<Vec<&str>> = table.lines().map(|it| it.split(' ').collect()).collect();
    for row in &rows {
        let pieces = row[1].split('/').filter(|it| !it.is_empty());
        let texts = pieces.map(|it| String::from_utf8(from_hex(it))).collect::<Result<Vec<_>, _>>();
        let texts = match texts {
            Ok(texts) => texts,
            Err(_) => {
                assert_eq!(row[2], "-37");
                continue;
            }
        };
        let segments: Vec<&str> = texts.iter().map(|it| &it[..]).collect();
        let block = from_hex(row[0]);
        let found = find_segments(&block, &segments);
        match row[2] {
            "-36" => assert_eq!(found, Ok(None), "{row:?}"),
            code if code.starts_with('-') => assert!(found.is_err(), "{row:?}"),
            _ => {
                let [begin, end] = [3, 4].map(|it: usize| row[it].parse::<usize>().unwrap());
                assert_eq!(found, Ok(Some(&block[begin..end])), "{row:?}");
            }
        }
    }
    assert!(rows.len() > 1000);
}

struct Held {
    blocks: HashMap<Cid, Vec<u8>>,
    root: Cid,
    leaf: Cid,
    lost: Cid,
    raw: Cid,
}

impl Held {
    fn put(&mut self, items: &[Item<'_>]) -> Cid {
        let block = spell(items).unwrap();
        let cid = name(&block);
        self.blocks.insert(cid, block);
        cid
    }

    fn resolved(&self, root: &Cid, path: &str) -> Result<Option<Vec<u8>>, Unresolved<Infallible>> {
        resolve(|cid| Ok(self.blocks.get(cid)), root, path)
    }
}

/// A root with links to a leaf, to none, to a block of another codec, and to one in its name.
fn held() -> Held {
    let raw = Cid::new_v1(0x55, 0x12, name(b"raw").digest()).unwrap();
    let none = name(b"none");
    let mut held = Held { blocks: HashMap::new(), root: none, leaf: none, lost: none, raw };
    held.blocks.insert(raw, b"raw".to_vec());
    held.leaf = held.put(&[Item::Map(1), Item::Text("b"), Item::List(2), Item::Integer(1), Item::Null]);
    let inside = Cid::new_v1(0x71, 0, b"\x81\x05").unwrap();
    let links = [held.leaf, held.lost, held.raw, inside];
    let mut items = vec![Item::Map(1), Item::Text("links"), Item::List(4)];
    items.extend(links.iter().map(|it| Item::Link(*it)));
    held.root = held.put(&items);
    held
}

#[test]
fn paths_lead_over_links() {
    let held = held();
    let rows: [(&str, Option<&[u8]>); 9] = [
        ("links/0/b/0", Some(b"\x01")),
        ("//links//0//b//1//", Some(b"\xf6")),
        ("links/0/b/01", None),
        ("links/0/b/2", None),
        ("links/0/c", None),
        ("links/9", None),
        ("links/3/0", Some(b"\x05")),
        ("links/3/1", None),
        ("links/0/b/0/x", None),
    ];
    for (path, wanted) in rows {
        assert_eq!(held.resolved(&held.root, path).unwrap().as_deref(), wanted, "{path}");
    }
    let link = held.resolved(&held.root, "links/2").unwrap().unwrap();
    assert_eq!(link, spell(&[Item::Link(held.raw)]).unwrap());
    for path in ["x".repeat(1_000_000), format!("links/{}", "9".repeat(5000))] {
        assert_eq!(held.resolved(&held.root, &path), Ok(None));
    }
}

#[test]
fn a_block_that_is_not_held_is_no_absence() {
    let mut held = held();
    assert_eq!(held.resolved(&held.root, "links/1/x"), Err(Unresolved::Missing(held.lost)));
    let found = held.resolved(&held.root, "links/2/x");
    assert_eq!(found, Err(Unresolved::NoBlock(held.raw, Verdict::NotRead)));
    held.blocks.insert(held.leaf, b"\x05".to_vec());
    let found = held.resolved(&held.root, "links/0/b");
    assert_eq!(found, Err(Unresolved::NoBlock(held.leaf, Verdict::OtherBytes)));
    let failed = resolve(|_| Err::<Option<Vec<u8>>, _>("a fault"), &held.root, "");
    assert_eq!(failed, Err(Unresolved::Get("a fault")));
}

#[test]
fn segments_lead_over_links() {
    let mut held = held();
    let inner = held.put(&[
        Item::Map(2), Item::Text(""), Item::Map(1), Item::Text("/"), Item::Integer(7),
        Item::Text("c/d"), Item::List(1), Item::Link(held.leaf),
    ]);
    let root = held.put(&[
        Item::Map(2), Item::Text(""), Item::Link(held.leaf),
        Item::Text("a/b"), Item::List(2), Item::Link(inner), Item::Link(held.lost),
    ]);
    let get = |cid: &Cid| Ok::<_, Infallible>(held.blocks.get(cid));
    let ask = |it: &[&str]| resolve_segments(get, &root, it);
    let rows: [(&[&str], Option<&[u8]>); 9] = [
        (&[], Some(&held.blocks[&root])),
        (&["a/b", "0", ""], Some(b"\xa1\x61/\x07")),
        (&["a/b", "0", "", "/"], Some(b"\x07")),
        (&["a/b", "0", "c/d", "0", "b", "1"], Some(b"\xf6")),
        (&["", "b", "0"], Some(b"\x01")),
        (&["a", "b", "0"], None),
        (&["a/b", "", "0"], None),
        (&["", "b", "0", ""], None),
        (&[""; 5000], None),
    ];
    for (segments, wanted) in rows {
        assert_eq!(ask(segments).unwrap().as_deref(), wanted, "{:?}", segments.get(..6));
    }
    assert_eq!(ask(&["a/b", "1", ""]), Err(Unresolved::Missing(held.lost)));
    let other = resolve_segments(|_| Ok::<_, Infallible>(Some(b"\x05")), &root, &["a/b"]);
    assert_eq!(other, Err(Unresolved::NoBlock(root, Verdict::OtherBytes)));
}
