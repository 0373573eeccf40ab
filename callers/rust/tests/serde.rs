//! Types by serde: what is read and written of each shape, and where what is refused stands.
#![cfg(feature = "serde")]

use dagcbor::de::Deserializer as Blocks;
use dagcbor::{
    from_ipld, from_reader, from_reader_once, from_slice, ipld, name, take_from_slice, to_vec,
    to_writer, Cid, Error, Ipld, Refusal,
};
use serde::de::{DeserializeOwned, IntoDeserializer};
use serde::{Deserialize, Deserializer, Serialize, Serializer};
use std::collections::{BTreeMap, HashMap};
use std::fmt::Debug;

/// Bytes, as those of the crate serde_bytes.
#[derive(Clone, Debug, PartialEq, Eq, PartialOrd, Ord)]
struct Bytes(Vec<u8>);

impl Serialize for Bytes {
    fn serialize<S: Serializer>(&self, serializer: S) -> Result<S::Ok, S::Error> {
        serializer.serialize_bytes(&self.0)
    }
}

impl<'de> Deserialize<'de> for Bytes {
    fn deserialize<D: Deserializer<'de>>(deserializer: D) -> Result<Bytes, D::Error> {
        struct Visitor;
        impl<'de> serde::de::Visitor<'de> for Visitor {
            type Value = Bytes;
            fn expecting(&self, f: &mut std::fmt::Formatter<'_>) -> std::fmt::Result {
                f.write_str("bytes")
            }
            fn visit_bytes<E>(self, bytes: &[u8]) -> Result<Bytes, E> {
                Ok(Bytes(bytes.to_vec()))
            }
        }
        deserializer.deserialize_byte_buf(Visitor)
    }
}

fn both<T: Serialize + DeserializeOwned + PartialEq + Debug>(value: T, block: &[u8]) {
    assert_eq!(to_vec(&value).unwrap(), block);
    assert_eq!(from_slice::<T>(block).unwrap(), value);
    assert_eq!(from_reader::<T, _>(block).unwrap(), value);
}

fn refused<T: DeserializeOwned>(block: &[u8]) -> (Option<Refusal>, usize) {
    let error = from_slice::<T>(block).err().unwrap();
    (error.refusal(), error.place().unwrap())
}

/// What a write is refused for, and where.
fn unwritten(value: impl Serialize) -> (String, String) {
    let error = to_vec(&value).unwrap_err();
    let path: Vec<&str> = error.path().collect();
    (error.to_string(), path.join("/"))
}

#[derive(Clone, Debug, PartialEq, Serialize, Deserialize)]
enum Shape {
    Unit,
    New(u32),
    Tuple(u8, String),
    Fields { long: u8, a: Option<bool> },
}

#[derive(Debug, PartialEq, Serialize, Deserialize)]
struct New(i8);

#[derive(Debug, PartialEq, Serialize, Deserialize)]
struct Unit;

#[derive(Debug, PartialEq, Serialize, Deserialize)]
struct Pair(u8, Bytes);

#[test]
fn each_shape_has_its_spelling() {
    both((), b"\xf6");
    both(Unit, b"\xf6");
    both(true, b"\xf5");
    both(23u8, b"\x17");
    both(-24i8, b"\x37");
    both(u64::MAX, b"\x1b\xff\xff\xff\xff\xff\xff\xff\xff");
    both(i64::MIN, b"\x3b\x7f\xff\xff\xff\xff\xff\xff\xff");
    both(-(1i128 << 64), b"\x3b\xff\xff\xff\xff\xff\xff\xff\xff");
    both((1u128 << 64) - 1, b"\x1b\xff\xff\xff\xff\xff\xff\xff\xff");
    both('水', b"\x63\xe6\xb0\xb4");
    both(String::from("hi"), b"\x62hi");
    both(Bytes(vec![1, 2]), b"\x42\x01\x02");
    both(vec![1, 2], b"\x82\x01\x02");
    both([1u8, 2], b"\x82\x01\x02");
    both((1u8, String::from("a")), b"\x82\x01\x61a");
    both(Pair(1, Bytes(vec![])), b"\x82\x01\x40");
    both(New(-1), b"\x20");
    both(Some(5u8), b"\x05");
    both(None::<u8>, b"\xf6");
    both(Shape::Unit, b"\x64Unit");
    both(Shape::New(256), b"\xa1\x63New\x19\x01\x00");
    both(Shape::Tuple(1, "b".into()), b"\xa1\x65Tuple\x82\x01\x61b");
    let fields = Shape::Fields { long: 1, a: None };
    both(fields, b"\xa1\x66Fields\xa2\x61a\xf6\x64long\x01");
    both(
        BTreeMap::from([('b', 1), ('a', 2)]),
        b"\xa2\x61a\x02\x61b\x01",
    );
    both(Ipld::Null, b"\xf6");
}

#[test]
fn keys_come_in_the_order_of_blocks() {
    let names = ["", "b", "aa", "ab", "b\u{e9}", "aaaa"];
    let mut map: HashMap<&str, HashMap<String, usize>> = HashMap::new();
    let mut wanted = vec![0xa6];
    for (count, it) in names.into_iter().enumerate() {
        map.insert(it, HashMap::from([("z".into(), count), ("yy".into(), 0)]));
        wanted.push(0x60 + it.len() as u8);
        wanted.extend(it.as_bytes());
        wanted.extend([0xa2, 0x61, b'z', count as u8, 0x62, b'y', b'y', 0]);
    }
    assert_eq!(to_vec(&map).unwrap(), wanted);
    let lent: HashMap<&str, HashMap<String, usize>> = from_slice(&wanted).unwrap();
    assert_eq!(lent, map);
}

/// The library refuses a block whose keys are in another order.
#[test]
fn many_keys_of_all_lengths() {
    let mut seed = 1u64;
    let mut below = |n: u64| {
        seed = seed.wrapping_mul(6364136223846793005).wrapping_add(1);
        (seed >> 33) % n
    };
    for count in (0..60).chain([300, 5000]) {
        let mut map = HashMap::new();
        for _ in 0..count {
            let length = [0, 1, 5, 6, 7, 8, 9, 22, 23, 24, 25, 255, 256][below(13) as usize];
            let text: String = (0..length).map(|_| ['a', 'b'][below(2) as usize]).collect();
            map.insert(text, BTreeMap::from([("aa", count), ("b", below(300))]));
        }
        let lent: HashMap<String, BTreeMap<&str, u64>> = map;
        let block = to_vec(&lent).unwrap();
        assert_eq!(
            to_vec(&lent.iter().collect::<BTreeMap<_, _>>()).unwrap(),
            block
        );
        assert_eq!(
            from_slice::<HashMap<String, BTreeMap<&str, u64>>>(&block).unwrap(),
            lent
        );
    }
}

#[test]
fn what_the_block_lends() {
    #[derive(Debug, PartialEq, Deserialize)]
    struct Lent<'a> {
        bytes: &'a [u8],
        text: &'a str,
    }
    let block = b"\xa2\x64text\x62hi\x65bytes\x41\x07";
    let lent: Lent = from_slice(block).unwrap();
    assert_eq!(lent.text.as_ptr(), block[7..].as_ptr());
    assert_eq!(lent.bytes.as_ptr(), block[16..].as_ptr());
    let list = to_vec(&lent.bytes).unwrap(); // as serde writes it
    assert_eq!(
        (&list[..], refused::<Bytes>(&list)),
        (&b"\x81\x07"[..], (None, 0))
    );
}

#[test]
fn cids_are_links() {
    #[derive(Debug, PartialEq, Serialize, Deserialize)]
    struct Linked {
        to: Vec<Cid>,
    }
    #[derive(Debug, PartialEq, Serialize, Deserialize)]
    #[serde(untagged)]
    enum Either {
        Bytes(Bytes),
        Link(Cid),
    }
    #[derive(Debug, PartialEq, Serialize, Deserialize)]
    #[serde(tag = "type")]
    enum Tagged {
        Linked(Linked),
    }
    #[derive(Debug, PartialEq, Serialize, Deserialize)]
    struct Flat {
        #[serde(flatten)]
        rest: BTreeMap<String, Cid>,
    }
    let cid = Cid::try_from(&b"\x01\x55\0\0"[..]).unwrap();
    let link = b"\xd8\x2a\x45\0\x01\x55\0\0";
    both(cid, link);
    both(Ipld::Link(cid), link);
    both(Either::Link(cid), link);
    both(Either::Bytes(Bytes(vec![1])), b"\x41\x01");
    let linked = || Linked { to: vec![cid] };
    both(linked(), &[b"\xa1\x62to\x81", &link[..]].concat());
    let tagged = [b"\xa2\x62to\x81", &link[..], b"\x64type\x66Linked"].concat();
    both(Tagged::Linked(linked()), &tagged);
    let flat = [b"\xa1\x61x", &link[..]].concat();
    both(
        Flat {
            rest: BTreeMap::from([("x".into(), cid)]),
        },
        &flat,
    );

    assert_eq!(refused::<Bytes>(link), (None, 0));
    assert_eq!(refused::<Vec<u8>>(link), (None, 0));
    assert_eq!(refused::<Cid>(&link[2..]), (None, 0));
    let of_text: Result<Cid, serde::de::value::Error> =
        Cid::deserialize("bafkqaaa".into_deserializer());
    assert_eq!(of_text, Ok(cid)); // of a format for people
}

#[test]
fn the_parts_of_a_cid() {
    let cid: Cid = "QmdfTbBqBPQ7VNxZEYEj14VmRuZBkqFbiwReogJgS1zR1n"
        .parse()
        .unwrap();
    assert_eq!(
        (cid.version(), cid.codec(), cid.hash_code()),
        (0, 0x70, 0x12)
    );
    assert_eq!(cid.digest(), &cid.as_bytes()[2..]);
    let cid = Cid::new_v1(1 << 63 | 5, 300, &[7; 64]).unwrap();
    assert_eq!(
        (cid.version(), cid.codec(), cid.hash_code()),
        (1, 1 << 63 | 5, 300)
    );
    assert_eq!(
        (cid.digest(), cid.as_bytes().len()),
        (&[7; 64][..], 1 + 10 + 2 + 1 + 64)
    );
    assert_eq!(Cid::try_from(cid.to_string().as_str()), Ok(cid));
    for length in [65, 86, 104, 105, 300] {
        assert_eq!(
            Cid::new_v1(0x71, 0x12, &vec![0; length]),
            Err(Refusal::InvalidCid)
        );
    }
    assert_eq!("bafy!".parse::<Cid>(), Err(Refusal::InvalidCharacter));
    let mut cids = [
        name(b"\xf6"),
        name(b"\x17"),
        Cid::try_from(&b"\x01\x55\0\0"[..]).unwrap(),
    ];
    cids.sort();
    assert!(cids
        .windows(2)
        .all(|it| it[0].as_bytes() < it[1].as_bytes()));
}

#[test]
fn a_read_says_where() {
    assert_eq!(refused::<u8>(b"\x18\x17"), (Some(Refusal::NonMinimal), 1));
    assert_eq!(refused::<u8>(b"\x17\xf6"), (Some(Refusal::TrailingData), 1));
    assert_eq!(
        refused::<f64>(b"\xfb\0\0\0\0\0\0\0\0"),
        (Some(Refusal::Unsupported), 0)
    );
    assert_eq!(refused::<f64>(b"\x17"), (None, 0));
    assert_eq!(
        refused::<Vec<u8>>(b"\x83\x01\x18\x18\x19\x01\x00"),
        (None, 4)
    );
    assert_eq!(refused::<Vec<String>>(b"\x82\x62hi\x42hi"), (None, 4));
    assert_eq!(refused::<(u8, u8)>(b"\x81\x01"), (None, 0));
    assert_eq!(refused::<(u8, u8)>(b"\x83\x01\x02\x03"), (None, 0));
    assert_eq!(refused::<Shape>(b"\x63New"), (None, 0));
    assert_eq!(refused::<Shape>(b"\x66Sphere"), (None, 0));
    assert_eq!(refused::<Shape>(b"\xa1\x64Unit\x01"), (None, 6));
    assert_eq!(
        refused::<Shape>(b"\xa2\x64Unit\x01\x65Unit2\x01"),
        (None, 0)
    );
    assert_eq!(refused::<BTreeMap<u8, u8>>(b"\xa1\x61a\x01"), (None, 1));
    assert_eq!(
        from_slice::<Shape>(b"\xa1\x64Unit\xf6").unwrap(),
        Shape::Unit
    );

    #[derive(Debug, Deserialize)]
    struct Named {
        #[allow(dead_code)]
        name: u8,
    }
    let error = from_slice::<Named>(b"\xa0").unwrap_err();
    assert_eq!(error.to_string(), "missing field `name`, at 0");

    #[derive(Debug, Deserialize)]
    struct Loop(#[allow(dead_code)] Option<Box<Loop>>);
    assert_eq!(refused::<Loop>(b"\x01"), (None, 0));
    assert!(from_slice::<Loop>(b"\xf6").is_ok());
}

/// What serde or a type says when the item is read already, too.
#[test]
fn what_is_said_late_has_a_place() {
    #[derive(Debug, Deserialize)]
    #[serde(try_from = "u8")]
    struct Even(#[allow(dead_code)] u8);
    impl TryFrom<u8> for Even {
        type Error = &'static str;
        fn try_from(n: u8) -> Result<Even, &'static str> {
            (n % 2 == 0).then_some(Even(n)).ok_or("it is odd")
        }
    }
    #[derive(Debug, Deserialize)]
    #[serde(tag = "t")]
    enum Tagged {
        Of {
            #[allow(dead_code)]
            of: Cid,
        },
    }
    assert_eq!(refused::<Even>(b"\x01"), (None, 0));
    assert_eq!(refused::<Vec<Even>>(b"\x83\x02\x18\x18\x03"), (None, 4));
    assert_eq!(
        refused::<BTreeMap<String, Even>>(b"\xa2\x61a\x02\x61b\x03"),
        (None, 6)
    );
    assert_eq!(refused::<Tagged>(b"\xa1\x61t\x62Of"), (None, 0));
    assert_eq!(
        refused::<(u8, Tagged)>(b"\x82\x01\xa2\x61t\x62Of\x62of\x01"),
        (None, 2)
    );
    let mut stream = Blocks::from_slice(b"\x02\x81\x01").into_iter::<Even>();
    assert!(stream.next().unwrap().is_ok());
    assert_eq!(stream.next().unwrap().unwrap_err().place(), Some(1));
    let mut stream = Blocks::from_slice(b"\x18\x18\x01").into_iter::<Even>();
    assert!(stream.next().unwrap().is_ok());
    let error = stream.next().unwrap().unwrap_err();
    assert_eq!(error.to_string(), "it is odd, at 2");
    let error = from_reader_once::<Even, _>(&b"\x01"[..]).unwrap_err();
    assert_eq!(error.place(), Some(0));
}

#[test]
fn a_write_says_where() {
    let floats = BTreeMap::from([("a", vec![Some(0.5)])]);
    let said = "floats are not written, at a/0";
    assert_eq!(unwritten(floats), (said.into(), "a/0".into()));
    let deep = BTreeMap::from([("a", BTreeMap::from([("b", (0, 0.5)), ("c", (0, 0.0))]))]);
    assert_eq!(unwritten([deep]).1, "0/a/b/1");
    let long = 1u128 << 64;
    assert_eq!(unwritten((1, long)).1, "1");
    assert_eq!(unwritten(u128::MAX).1, "");
    assert_eq!(unwritten(-(1i128 << 64) - 1).1, "");
    for key in [
        Ipld::Null,
        1.into(),
        Ipld::Bytes(vec![]),
        Ipld::List(vec![]),
        name(b"").into(),
    ] {
        let said = unwritten([BTreeMap::from([(key, 0)])]);
        assert_eq!(said, ("Map keys must be strings, at 0".into(), "0".into()));
    }

    #[derive(Serialize)]
    enum Held {
        New(f32),
        Tuple(u8, f32),
        Fields { x: f32 },
    }
    assert_eq!(unwritten(Held::New(0.0)).1, "New");
    assert_eq!(unwritten(Held::Tuple(0, 0.0)).1, "Tuple/1");
    assert_eq!(unwritten(Held::Fields { x: 0.0 }).1, "Fields/x");

    #[derive(Serialize)]
    struct Twice {
        a: u8,
        #[serde(flatten)]
        more: BTreeMap<&'static str, u8>,
    }
    let more = BTreeMap::from([("a", 2)]);
    let error = to_vec(&[Twice { a: 1, more }]).unwrap_err();
    assert_eq!(error.refusal(), Some(Refusal::UnorderedKey));
    assert!(error.path().eq(["0", "a"]));
    struct Entries(Vec<String>);
    impl Serialize for Entries {
        fn serialize<S: Serializer>(&self, serializer: S) -> Result<S::Ok, S::Error> {
            serializer.collect_map(self.0.iter().map(|it| (it, ())))
        }
    }
    for length in [0, 1, 9, 23, 24, 255, 256, 70_000] {
        for others in [0, 1, 40] {
            let twice = "b".repeat(length);
            let mut keys = vec!["zz".into(), twice.clone(), "aaa".into(), twice.clone()];
            keys.extend((0..others).map(|it| format!("a key {it}")));
            let error = to_vec(&Entries(keys)).unwrap_err();
            assert_eq!(error.refusal(), Some(Refusal::UnorderedKey));
            assert!(error.path().eq([twice]));
        }
    }
}

#[test]
fn the_table_holds() {
    for row in include_str!("../../tables/table.txt").lines() {
        let words: Vec<&str> = row.split(' ').collect();
        let pair = |it| u8::from_str_radix(&words[0][it..it + 2], 16).unwrap();
        let count = words[0].trim_matches('-').len();
        let block: Vec<u8> = (0..count).step_by(2).map(pair).collect();
        match words[1].parse::<i32>().unwrap() {
            0.. => both(from_slice::<Ipld>(&block).unwrap(), &block),
            _ => assert_eq!(refused::<Ipld>(&block).1.to_string(), words[6]),
        }
        if let Ok((first, rest)) = take_from_slice::<Ipld>(&block) {
            both(first, &block[..block.len() - rest.len()]);
        }
    }
}

/// As types by serde_tuple have them.
#[derive(Debug, PartialEq, Serialize, Deserialize)]
struct Row(#[serde(default)] u8, #[serde(default)] String);

#[test]
fn rows_may_end_early() {
    assert_eq!(from_slice::<Row>(b"\x80").unwrap(), Row(0, "".into()));
    assert_eq!(
        from_slice::<(u8, Row)>(b"\x82\x01\x81\x02").unwrap().1,
        Row(2, "".into())
    );
    both(Row(2, "a".into()), b"\x82\x02\x61a");
    assert_eq!(refused::<Vec<Row>>(b"\x82\x80\x83\x02\x61a\x03"), (None, 2));
}

#[test]
fn depths_are_those_of_the_library() {
    let deep = |levels: usize| (0..levels).fold(Ipld::Null, |it, _| Ipld::List(vec![it]));
    let mut block = vec![0x81; 127];
    block.push(0xf6);
    both(deep(127), &block);
    let error = to_vec(&deep(128)).unwrap_err();
    assert_eq!(
        (error.refusal(), error.path().count()),
        (Some(Refusal::DepthOverflow), 128)
    );
    block.insert(0, 0x81);
    assert_eq!(refused::<Ipld>(&block).0, Some(Refusal::DepthOverflow));
}

/// Of a build that is not optimized, too.
#[test]
fn a_megabyte_of_stack_is_enough() {
    #[derive(Debug, PartialEq, Serialize, Deserialize)]
    #[serde(untagged)]
    enum Value {
        Null,
        All(Vec<Value>),
        Named(BTreeMap<String, Value>),
    }
    let blocks = [&b"\x81"[..], b"\xa1\x61a"].map(|it| [&it.repeat(127), &b"\xf6"[..]].concat());
    let thread = std::thread::Builder::new().stack_size(1 << 20);
    let read_and_write = move || {
        for block in blocks {
            both(from_slice::<Ipld>(&block).unwrap(), &block);
            both(from_slice::<Value>(&block).unwrap(), &block);
        }
    };
    thread.spawn(read_and_write).unwrap().join().unwrap();
}

#[test]
fn items_one_after_the_other() {
    let bytes = b"\xa1\x62op\x01\xa1\x61t\x62hi\x18";
    let (first, rest) = take_from_slice::<BTreeMap<String, u8>>(bytes).unwrap();
    assert_eq!(first, BTreeMap::from([("op".into(), 1)]));
    let (second, rest) = take_from_slice::<Ipld>(rest).unwrap();
    assert_eq!(second.get("t").and_then(Ipld::as_str), Some("hi"));
    let error = take_from_slice::<u8>(rest).unwrap_err();
    assert_eq!(
        (error.refusal(), error.place()),
        (Some(Refusal::Eof), Some(1))
    );
}

#[test]
fn data_is_looked_up() {
    let cid = name(b"\xf6");
    let inner = BTreeMap::from([("b".into(), Ipld::from(cid)), ("".into(), true.into())]);
    let data = Ipld::from(BTreeMap::from([(
        "a".into(),
        Ipld::from(vec![Ipld::Map(inner)]),
    )]));
    assert_eq!(data.get("a/0/b").and_then(Ipld::as_link), Some(&cid));
    assert_eq!(data.get("//a//0/"), data.get("a/0")); // empty segments say nothing
    assert_eq!(data.get(""), Some(&data));
    for path in ["b", "a/1", "a/-1", "a/x", "a/0/b/c", "a/00"] {
        assert_eq!(data.get(path), None);
    }
    assert_eq!(from_slice::<Ipld>(&to_vec(&data).unwrap()).unwrap(), data);
    assert_eq!(Ipld::from(None::<u8>), Ipld::Null);
    assert_eq!(Ipld::from("a").as_integer(), None);
}

#[test]
fn writers_that_fail() {
    struct Full;
    impl std::io::Write for Full {
        fn write(&mut self, _: &[u8]) -> std::io::Result<usize> {
            Ok(0)
        }
        fn flush(&mut self) -> std::io::Result<()> {
            Ok(())
        }
    }
    let mut out = Vec::new();
    to_writer(&mut out, &(1, 2)).unwrap();
    assert_eq!(out, b"\x82\x01\x02");
    let error: Error = to_writer(Full, &1).unwrap_err();
    assert!(error.refusal().is_none() && std::error::Error::source(&error).is_some());
    assert_eq!(
        std::io::Error::from(error).kind(),
        std::io::ErrorKind::WriteZero
    );
}

#[test]
fn what_is_held_back_is_no_link_but_by_its_tag() {
    #[derive(Debug, PartialEq, Serialize, Deserialize)]
    #[serde(untagged)]
    enum Value {
        Link(Cid),
        Bytes(Bytes), // before a text, as which serde takes bytes that are UTF-8
        Text(String),
    }
    #[derive(Debug, PartialEq, Serialize, Deserialize)]
    #[serde(tag = "t")]
    enum Record {
        #[serde(rename = "p")]
        Post { of: Cid },
    }
    #[derive(Debug, PartialEq, Serialize, Deserialize)]
    struct Flat {
        #[serde(flatten)]
        rest: BTreeMap<String, Cid>,
    }
    let cid = Cid::try_from(&b"\x01\x55\0\0"[..]).unwrap();
    both(Value::Text("bafkqaaa".into()), b"\x68bafkqaaa");
    both(Value::Bytes(Bytes(cid.to_bytes())), b"\x44\x01\x55\0\0");
    both(Value::Link(cid), b"\xd8\x2a\x45\0\x01\x55\0\0");
    let post = |of: &[u8]| [b"\xa2\x61t\x61p\x62of", of].concat();
    both(
        Record::Post { of: cid },
        &[b"\xa2\x61t\x61p\x62of", &b"\xd8\x2a\x45\0\x01\x55\0\0"[..]].concat(),
    );
    // Limits of serde, as the page has them: 128 bits are not held back, and bytes may be a text.
    #[derive(Debug, PartialEq, Serialize, Deserialize)]
    struct Wide {
        #[serde(flatten)]
        rest: BTreeMap<String, i128>,
    }
    let rest = BTreeMap::from([("a".into(), 5)]);
    assert_eq!(to_vec(&Wide { rest }).unwrap(), b"\xa1\x61a\x05");
    assert!(from_slice::<Wide>(b"\xa1\x61a\x05").is_err());
    fn by_data<'de, D: Deserializer<'de>, T: DeserializeOwned>(held: D) -> Result<T, D::Error> {
        from_ipld(Ipld::deserialize(held)?).map_err(serde::de::Error::custom)
    }
    #[derive(Debug, PartialEq, Serialize, Deserialize)]
    struct ByData {
        #[serde(flatten, deserialize_with = "by_data")]
        rest: BTreeMap<String, i128>,
    }
    let rest = BTreeMap::from([("a".into(), -5), ("b".into(), 1 << 63)]);
    both(ByData { rest }, b"\xa2\x61a\x24\x61b\x1b\x80\0\0\0\0\0\0\0");
    #[derive(Debug, PartialEq, Deserialize)]
    #[serde(untagged)]
    enum Told {
        Text(String),
    }
    assert_eq!(
        from_slice::<Told>(b"\x41a").unwrap(),
        Told::Text("a".into())
    );
    // Other formats have other errors: of these a text and bytes are one.
    use serde::de::value::{BorrowedBytesDeserializer, Error, StrDeserializer};
    let text = Cid::deserialize(StrDeserializer::<Error>::new("bafkqaaa"));
    let bytes = Cid::deserialize(BorrowedBytesDeserializer::<Error>::new(b"\x01\x55\0\0"));
    assert_eq!((text, bytes), (Ok(cid), Ok(cid)));
    let text = Value::deserialize(StrDeserializer::<Error>::new("bafkqaaa"));
    let bytes = Value::deserialize(BorrowedBytesDeserializer::<Error>::new(b"\x01\x55\0\0"));
    assert_eq!((text, bytes), (Ok(Value::Link(cid)), Ok(Value::Link(cid))));
    for of in [&b"\x68bafkqaaa"[..], b"\x44\x01\x55\0\0"] {
        assert!(from_slice::<Record>(&post(of)).is_err());
        assert!(from_slice::<Flat>(&[b"\xa1\x61x", of].concat()).is_err());
    }
}

/// Limits of serde that the page has: none of these is so where nothing is held back.
#[test]
fn what_serde_takes_of_what_it_holds_back() {
    #[derive(Debug, PartialEq, Deserialize)]
    struct Pair {
        x: u8,
        y: u8,
    }
    /// As bytes of serde_bytes are.
    #[derive(Debug, PartialEq)]
    struct Loose(Vec<u8>);
    impl<'de> Deserialize<'de> for Loose {
        fn deserialize<D: Deserializer<'de>>(deserializer: D) -> Result<Loose, D::Error> {
            struct Visitor;
            impl<'de> serde::de::Visitor<'de> for Visitor {
                type Value = Loose;
                fn expecting(&self, f: &mut std::fmt::Formatter<'_>) -> std::fmt::Result {
                    f.write_str("bytes")
                }
                fn visit_bytes<E>(self, bytes: &[u8]) -> Result<Loose, E> {
                    Ok(Loose(bytes.to_vec()))
                }
                fn visit_str<E>(self, text: &str) -> Result<Loose, E> {
                    Ok(Loose(text.into()))
                }
            }
            deserializer.deserialize_byte_buf(Visitor)
        }
    }
    #[derive(Debug, PartialEq, Deserialize)]
    #[serde(untagged)]
    enum Held<T> {
        It(T),
    }
    fn held<T: DeserializeOwned>(block: &[u8]) -> Option<T> {
        assert!(from_slice::<T>(block).is_err());
        from_slice(block).ok().map(|Held::It(it)| it)
    }
    assert_eq!(held(b"\x82\x01\x02"), Some(Pair { x: 1, y: 2 }));
    assert_eq!(held(b"\x62hi"), Some(Loose(b"hi".to_vec())));
    let rounded = held(b"\x1b\0\x20\0\0\0\0\0\x01");
    assert_eq!(rounded, Some((1u64 << 53) as f64));
    assert!(from_slice::<Held<()>>(b"\xf6").is_err());
    assert!(from_slice::<Held<Unit>>(b"\xf6").is_err());
    assert!(from_slice::<Held<Option<u8>>>(b"\xf6").is_ok());
    both(std::net::Ipv4Addr::new(1, 2, 3, 4), b"\x84\x01\x02\x03\x04");
    assert!(from_slice::<Held<std::net::Ipv4Addr>>(b"\x84\x01\x02\x03\x04").is_err());

    assert_eq!(to_vec(&Some(None::<u8>)).unwrap(), b"\xf6");
    assert_eq!(from_slice::<Option<Option<u8>>>(b"\xf6").unwrap(), None);
    assert_eq!(to_vec(&Some(())).unwrap(), b"\xf6");
    assert_eq!(from_slice::<Option<()>>(b"\xf6").unwrap(), None);
}

/// A newtype as derive has it takes what is in a newtype that was held back, whatever its name.
#[test]
fn no_newtype_takes_a_link() {
    #[derive(Clone, Debug, PartialEq, Serialize, Deserialize)]
    struct Signature(Bytes);
    #[derive(Clone, Debug, PartialEq, Serialize, Deserialize)]
    struct Title(String);
    #[derive(Clone, Debug, PartialEq, Serialize, Deserialize)]
    #[serde(untagged)]
    enum Value {
        Signature(Signature),
        Title(Title),
        Link(Option<Cid>),
        Data(Ipld),
    }
    #[derive(Debug, PartialEq, Serialize, Deserialize)]
    #[serde(tag = "t", content = "c")]
    enum Record {
        Values(Vec<Value>),
    }
    let cid = Cid::try_from(&b"\x01\x55\0\0"[..]).unwrap();
    let link = b"\xd8\x2a\x45\0\x01\x55\0\0";
    let values = [
        (Value::Link(Some(cid)), &link[..]),
        (Value::Link(None), b"\xf6"),
        (
            Value::Signature(Signature(Bytes(cid.to_bytes()))),
            b"\x44\x01\x55\0\0",
        ),
        (Value::Title(Title("bafkqaaa".into())), b"\x68bafkqaaa"),
        (
            Value::Data(vec![Ipld::from(cid)].into()),
            &[b"\x81", &link[..]].concat(),
        ),
    ];
    let (mut all, mut record) = (vec![], b"\xa2\x61c\x85".to_vec());
    for (value, block) in values {
        both(value.clone(), block);
        all.push(value);
        record.extend(block);
    }
    record.extend(b"\x61t\x66Values");
    both(Record::Values(all), &record);
}

/// A newtype of a CID or of data is what is in it, also where it is held back.
#[test]
fn newtypes_of_links_are_links() {
    #[derive(Clone, Debug, PartialEq, Serialize, Deserialize)]
    struct To<T>(T);
    #[derive(Debug, PartialEq, Serialize, Deserialize)]
    #[serde(tag = "t")]
    enum Record<T> {
        Post { of: To<T> },
    }
    #[derive(Debug, PartialEq, Serialize, Deserialize)]
    struct Flat<T> {
        #[serde(flatten)]
        rest: BTreeMap<String, Option<To<T>>>,
    }
    fn hold<T: Clone + Debug + PartialEq + Serialize + DeserializeOwned>(of: T, link: &[u8]) {
        let of = To(of);
        both(of.clone(), link);
        let post = [b"\xa2\x61t\x64Post\x62of", link].concat();
        both(Record::Post { of: of.clone() }, &post);
        let rest = BTreeMap::from([("x".into(), Some(of))]);
        both(Flat { rest }, &[b"\xa1\x61x", link].concat());
    }
    let cid = Cid::try_from(&b"\x01\x55\0\0"[..]).unwrap();
    hold(cid, b"\xd8\x2a\x45\0\x01\x55\0\0");
    hold(Some(cid), b"\xd8\x2a\x45\0\x01\x55\0\0");
    hold(Ipld::from(cid), b"\xd8\x2a\x45\0\x01\x55\0\0");
    hold(ipld!([cid]), b"\x81\xd8\x2a\x45\0\x01\x55\0\0");
    hold(Ipld::Bytes(cid.to_bytes()), b"\x44\x01\x55\0\0");
    for of in [&b"\x68bafkqaaa"[..], b"\x44\x01\x55\0\0"] {
        let post = [b"\xa2\x61t\x64Post\x62of", of].concat();
        assert!(from_slice::<Record<Cid>>(&post).is_err());
        assert!(from_slice::<Flat<Cid>>(&[b"\xa1\x61x", of].concat()).is_err());
    }
}

/// Serde's limit: the data of `ipld-core` takes a link that was held back by the same calls.
#[test]
fn a_newtype_in_a_newtype_takes_a_link() {
    #[derive(Debug, PartialEq, Deserialize)]
    struct Inner<T>(T);
    #[derive(Debug, PartialEq, Deserialize)]
    struct Outer<T>(Inner<T>);
    #[derive(Debug, PartialEq, Deserialize)]
    #[serde(untagged)]
    enum Held<T, U> {
        First(T),
        Second(U),
    }
    let cid = Cid::try_from(&b"\x01\x55\0\0"[..]).unwrap();
    let link = b"\xd8\x2a\x45\0\x01\x55\0\0";
    assert_eq!(
        from_slice::<Held<Outer<Bytes>, Cid>>(link).unwrap(),
        Held::First(Outer(Inner(Bytes(cid.to_bytes()))))
    );
    assert_eq!(
        from_slice::<Held<Cid, Outer<Bytes>>>(link).unwrap(),
        Held::First(cid)
    );
    assert!(from_slice::<Held<Inner<Bytes>, u8>>(link).is_err());
    assert!(from_slice::<Outer<Bytes>>(link).is_err());
    assert!(from_slice::<Held<Outer<Cid>, u8>>(link).is_err());
    assert_eq!(
        from_slice::<Held<Outer<Ipld>, u8>>(link).unwrap(),
        Held::First(Outer(Inner(Ipld::Bytes(cid.to_bytes()))))
    );
}

#[test]
fn other_fields_are_kept() {
    #[derive(Debug, PartialEq, Serialize, Deserialize)]
    struct Note {
        text: String,
        #[serde(flatten)]
        rest: BTreeMap<String, Ipld>,
    }
    let link = b"\xd8\x2a\x45\0\x01\x55\0\0";
    let data = [b"\xa1\x61c\x82\x44\x01\x55\0\0", &link[..]].concat();
    let front = [b"\xa4\x61a", &link[..], b"\x61b"].concat();
    let block = [
        &front,
        &data[..],
        b"\x61d\x3b\x7f\xff\xff\xff\xff\xff\xff\xff\x64text\x68bafkqaaa",
    ];
    let cid = Cid::try_from(&b"\x01\x55\0\0"[..]).unwrap();
    let rest = BTreeMap::from([
        ("a".into(), cid.into()),
        ("b".into(), ipld!({ "c": [cid.to_bytes(), cid] })),
        ("d".into(), i64::MIN.into()),
    ]);
    let text = "bafkqaaa".into();
    both(Note { text, rest }, &block.concat());
}

/// Fields of a variant are held back when they are written, too.
#[test]
fn data_in_a_variant_is_written() {
    #[derive(Debug, PartialEq, Serialize, Deserialize)]
    enum Shape {
        Fields { data: Ipld },
    }
    #[derive(Debug, PartialEq, Serialize, Deserialize)]
    struct Note {
        #[serde(flatten)]
        shape: Shape,
    }
    let data = ipld!([1, -2, i64::MIN, u64::MAX, name(b"\xf6"), { "a": null }]);
    let block = [b"\xa1\x66Fields\xa1\x64data", &to_vec(&data).unwrap()[..]].concat();
    let shape = Shape::Fields { data };
    both(Note { shape }, &block);
}

/// CIDs as the crate `cid` reads and writes them, and data as `ipld-core` reads it.
#[test]
fn cids_of_other_crates() {
    const NAME: &str = "$__serde__private__identifier__for__cid";
    #[derive(Debug, PartialEq)]
    struct Other(Vec<u8>);
    impl Serialize for Other {
        fn serialize<S: Serializer>(&self, serializer: S) -> Result<S::Ok, S::Error> {
            serializer.serialize_newtype_struct(NAME, &Bytes(self.0.clone()))
        }
    }
    impl<'de> Deserialize<'de> for Other {
        fn deserialize<D: Deserializer<'de>>(deserializer: D) -> Result<Other, D::Error> {
            struct Entry;
            impl<'de> serde::de::Visitor<'de> for Entry {
                type Value = Other;
                fn expecting(&self, f: &mut std::fmt::Formatter<'_>) -> std::fmt::Result {
                    f.write_str("a CID in a newtype")
                }
                fn visit_newtype_struct<D: Deserializer<'de>>(
                    self,
                    deserializer: D,
                ) -> Result<Other, D::Error> {
                    Bytes::deserialize(deserializer).map(|it| Other(it.0))
                }
            }
            deserializer.deserialize_newtype_struct(NAME, Entry)
        }
    }
    #[derive(Debug, PartialEq)]
    struct Data(Other);
    impl Serialize for Data {
        fn serialize<S: Serializer>(&self, serializer: S) -> Result<S::Ok, S::Error> {
            self.0.serialize(serializer)
        }
    }
    impl<'de> Deserialize<'de> for Data {
        fn deserialize<D: Deserializer<'de>>(deserializer: D) -> Result<Data, D::Error> {
            struct Any;
            impl<'de> serde::de::Visitor<'de> for Any {
                type Value = Data;
                fn expecting(&self, f: &mut std::fmt::Formatter<'_>) -> std::fmt::Result {
                    f.write_str("data")
                }
                fn visit_newtype_struct<D: Deserializer<'de>>(
                    self,
                    deserializer: D,
                ) -> Result<Data, D::Error> {
                    Other::deserialize(deserializer).map(Data)
                }
            }
            deserializer.deserialize_any(Any)
        }
    }
    let link = b"\xd8\x2a\x45\0\x01\x55\0\0";
    let cid = || Other(b"\x01\x55\0\0".to_vec());
    both(cid(), link);
    both(Data(cid()), link);
    assert_eq!(refused::<Other>(b"\x44\x01\x55\0\0"), (None, 0));
    // Where serde holds a link back, data takes it, and such a CID refuses it.
    #[derive(Debug, PartialEq, Serialize, Deserialize)]
    #[serde(untagged)]
    enum Held<T> {
        Link(T),
    }
    both(Held::Link(Data(cid())), link);
    assert!(from_slice::<Held<Other>>(link).is_err());
}

#[test]
fn nothing_is_left() {
    /// Takes this many keys, and this many values after each.
    #[derive(Debug)]
    struct Odd<const KEYS: usize, const VALUES: usize>;
    impl<'de, const KEYS: usize, const VALUES: usize> Deserialize<'de> for Odd<KEYS, VALUES> {
        fn deserialize<D: Deserializer<'de>>(deserializer: D) -> Result<Self, D::Error> {
            struct Visitor<const KEYS: usize, const VALUES: usize>;
            impl<'de, const KEYS: usize, const VALUES: usize> serde::de::Visitor<'de>
                for Visitor<KEYS, VALUES>
            {
                type Value = Odd<KEYS, VALUES>;
                fn expecting(&self, f: &mut std::fmt::Formatter<'_>) -> std::fmt::Result {
                    f.write_str("a map")
                }
                fn visit_map<A: serde::de::MapAccess<'de>>(
                    self,
                    mut map: A,
                ) -> Result<Self::Value, A::Error> {
                    for _ in 0..KEYS {
                        map.next_key::<String>()?;
                        for _ in 0..VALUES {
                            map.next_value::<String>()?;
                        }
                    }
                    Ok(Odd)
                }
            }
            deserializer.deserialize_map(Visitor)
        }
    }
    /// Reads nothing.
    #[derive(Debug)]
    struct Nothing;
    impl<'de> Deserialize<'de> for Nothing {
        fn deserialize<D: Deserializer<'de>>(_: D) -> Result<Nothing, D::Error> {
            Ok(Nothing)
        }
    }
    let block = b"\xa2\x61a\x61c\x61b\x61d";
    assert!(from_slice::<Odd<2, 1>>(block).is_ok());
    assert!(from_slice::<Odd<3, 1>>(block).is_err());
    assert!(from_slice::<Odd<2, 0>>(block).is_err());
    assert!(from_slice::<Odd<1, 2>>(block).is_err());
    assert!(from_slice::<Odd<1, 3>>(block).is_err());
    assert!(from_slice::<Odd<1, 1>>(block).is_err());
    assert!(from_slice::<Nothing>(block).is_err());
}
