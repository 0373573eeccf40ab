//! Blocks one after the other, out of slices and readers and into writers; data without types.
#![cfg(feature = "serde")]

use dagcbor::codec::{Codec, DagCborCodec, Links};
use dagcbor::de::Deserializer;
use dagcbor::ser::Serializer;
use dagcbor::{
    from_ipld, from_reader_once, ipld, iter_from_reader, name, take_from_slice, to_ipld, to_vec,
    to_writer, Error, Ipld, Refusal,
};
use serde::{Deserialize, Serialize};
use std::collections::BTreeMap;
use std::io::{self, BufRead, BufReader, ErrorKind, Read, Write};

/// Gives a byte at a time, and is interrupted before each. It ends after the last one, or fails.
struct Slow<'a> {
    bytes: &'a [u8],
    is_interrupted: bool,
    fails: bool,
}

impl Read for Slow<'_> {
    fn read(&mut self, room: &mut [u8]) -> io::Result<usize> {
        self.is_interrupted = !self.is_interrupted;
        match (self.is_interrupted, self.fails && self.bytes.is_empty()) {
            (true, _) => Err(ErrorKind::Interrupted.into()),
            (_, true) => Err(ErrorKind::TimedOut.into()),
            _ => self.bytes.read(&mut room[..1]),
        }
    }
}

fn slow(bytes: &[u8], fails: bool) -> BufReader<Slow<'_>> {
    BufReader::with_capacity(
        3,
        Slow {
            bytes,
            is_interrupted: false,
            fails,
        },
    )
}

fn told(error: Error) -> (Option<Refusal>, Option<usize>) {
    (error.refusal(), error.place())
}

/// A reader gives what a slice does, and is left where the item ends.
#[test]
fn readers_are_as_slices() {
    let long = "a".repeat(70_000);
    let more = [to_vec(&(&long, 1)).unwrap(), to_vec(&[&long; 3]).unwrap()];
    let rows = include_str!("../../tables/table.txt").lines().map(|row| {
        let word = row.split(' ').next().unwrap().trim_matches('-');
        let pair = |at| u8::from_str_radix(&word[at..at + 2], 16).unwrap();
        (0..word.len()).step_by(2).map(pair).collect()
    });
    for bytes in rows.chain(more) {
        let wanted = take_from_slice::<Ipld>(&bytes).map_err(told);
        let mut whole = &bytes[..];
        let of_whole = from_reader_once::<Ipld, _>(&mut whole).map_err(told);
        let mut pieces = slow(&bytes, false);
        let of_pieces = from_reader_once::<Ipld, _>(&mut pieces).map_err(told);
        let left: Vec<u8> = pieces.bytes().map(Result::unwrap).collect();
        assert_eq!((&of_whole, whole), (&of_pieces, &left[..]));
        match wanted {
            Ok((first, rest)) => assert_eq!((of_whole, whole), (Ok(first), rest)),
            Err(told) => assert_eq!(of_whole, Err(told)),
        }
    }
}

/// No more is read than says that no block begins so.
#[test]
fn readers_stop_early() {
    for (bytes, refusal) in [
        (b"\x82\x1c\xf6", Refusal::Unsupported),
        (b"\x82\x5f\xf6", Refusal::IndefiniteSize),
    ] {
        let mut reader = &bytes[..];
        let error = from_reader_once::<Ipld, _>(&mut reader).unwrap_err();
        assert_eq!((error.refusal(), reader), (Some(refusal), &b"\xf6"[..]));
    }
}

#[test]
fn streams_end_with_an_error() {
    type Answers = Vec<Result<u8, (Option<Refusal>, Option<usize>)>>;
    let cases: [(&[u8], Answers); 5] = [
        (b"", vec![]),
        (b"\x01\x18\x18", vec![Ok(1), Ok(24)]),
        (b"\x01\x61a\x02", vec![Ok(1), Err((None, Some(1)))]),
        (
            b"\x01\x82\x18\x17\x02",
            vec![Ok(1), Err((Some(Refusal::NonMinimal), Some(3)))],
        ),
        (
            b"\x01\x62a",
            vec![Ok(1), Err((Some(Refusal::Eof), Some(3)))],
        ),
    ];
    for (bytes, wanted) in cases {
        let values = Deserializer::from_slice(bytes).into_iter::<u8>();
        assert_eq!(
            values.map(|it| it.map_err(told)).collect::<Answers>(),
            wanted
        );
        let values = iter_from_reader::<u8, _>(slow(bytes, false));
        assert_eq!(
            values.map(|it| it.map_err(told)).collect::<Answers>(),
            wanted
        );
    }
    let mut values = iter_from_reader::<u8, _>(slow(b"\x01\x18", true));
    assert_eq!(values.next().unwrap().unwrap(), 1);
    let error = io::Error::from(values.next().unwrap().unwrap_err());
    assert_eq!(error.kind(), ErrorKind::TimedOut);
    assert!(values.next().is_none());
    for (bytes, kind) in [
        (&b"\x18"[..], ErrorKind::UnexpectedEof),
        (b"\x18\x17", ErrorKind::InvalidData),
        (b"\x61a", ErrorKind::InvalidData),
    ] {
        let error = from_reader_once::<u8, _>(bytes).unwrap_err();
        assert_eq!(io::Error::from(error).kind(), kind);
    }
}

#[test]
fn items_are_taken_one_by_one() -> Result<(), Error> {
    #[derive(Debug, PartialEq, Deserialize)]
    enum Shape<'a> {
        Unit,
        Lent(&'a str),
    }
    let bytes = b"\x64Unit\xa1\x64Lent\x62hi\xf6\x82\x01\x02";
    let (mut of_slice, mut of_reader) = (
        Deserializer::from_slice(bytes),
        Deserializer::from_reader(slow(bytes, false)),
    );
    assert_eq!(Shape::deserialize(&mut of_slice)?, Shape::Unit);
    assert_eq!(Shape::deserialize(&mut of_slice)?, Shape::Lent("hi"));
    assert_eq!(Option::<u8>::deserialize(&mut of_slice)?, None);
    let error = of_slice.end().unwrap_err();
    assert_eq!(told(error), (Some(Refusal::TrailingData), Some(15)));
    let error = <(u8, bool)>::deserialize(&mut of_slice).unwrap_err();
    assert_eq!(told(error), (None, Some(17)));
    of_slice.end()?;
    assert_eq!(
        told(u8::deserialize(&mut of_slice).unwrap_err()).0,
        Some(Refusal::Eof)
    );

    assert_eq!(Shape::deserialize(&mut of_reader)?, Shape::Unit);
    assert_eq!(Shape::deserialize(&mut of_reader)?, Shape::Lent("hi"));
    assert_eq!(Option::<u8>::deserialize(&mut of_reader)?, None);
    let error = of_reader.end().unwrap_err();
    assert_eq!(told(error), (Some(Refusal::TrailingData), Some(15)));
    let error = <(u8, bool)>::deserialize(&mut of_reader).unwrap_err();
    assert_eq!(told(error), (None, Some(17)));
    of_reader.end()?;
    assert_eq!(
        told(u8::deserialize(&mut of_reader).unwrap_err()).0,
        Some(Refusal::Eof)
    );
    Ok(())
}

/// Gives these one after the other, the last first, and fails once for each that is empty.
struct Halves<'a>(Vec<&'a [u8]>);

impl Read for Halves<'_> {
    fn read(&mut self, room: &mut [u8]) -> io::Result<usize> {
        match self.0.pop() {
            Some(b"") => Err(ErrorKind::WouldBlock.into()),
            Some(mut half) => half.read(room),
            None => Ok(0),
        }
    }
}

/// A reader that fails in the middle of a block may go on.
#[test]
fn readers_go_on() {
    let halves = Halves(vec![b"i", b"", b"\x62h", b"\x82\x18", b""]);
    let mut deserializer = Deserializer::from_reader(BufReader::new(halves));
    let first = <(u8, String)>::deserialize(&mut deserializer);
    assert!(first.is_err());
    let halves = Halves(vec![b"i", b"", b"h", b"\x18\x62", b"", b"\x82\x18"]);
    let mut deserializer = Deserializer::from_reader(BufReader::new(halves));
    assert!(<(u8, String)>::deserialize(&mut deserializer).is_err());
    assert!(<(u8, String)>::deserialize(&mut deserializer).is_err());
    let read = <(u8, String)>::deserialize(&mut deserializer).unwrap();
    assert_eq!(read, (24, "hi".into()));
}

/// What was read of a block that is not given still follows, and at the place where it begins.
#[test]
fn no_front_of_a_block_is_an_end() {
    let cut = |halves| {
        let mut cut = Deserializer::from_reader(BufReader::new(Halves(halves)));
        assert_eq!(u8::deserialize(&mut cut).unwrap(), 1);
        assert_eq!(
            told(String::deserialize(&mut cut).unwrap_err()),
            (None, None)
        );
        cut
    };
    let mut cut_short = cut(vec![b"", b"\x01\x62h"]);
    let error = cut_short.end().unwrap_err();
    assert_eq!(told(error), (Some(Refusal::TrailingData), Some(1)));
    let error = cut_short.into_iter::<String>().next().unwrap().unwrap_err();
    assert_eq!(told(error), (Some(Refusal::Eof), Some(3)));
    let mut rest = cut(vec![b"i\x61a", b"", b"\x01\x62h"]).into_iter::<String>();
    assert_eq!(rest.next().unwrap().unwrap(), "hi");
    assert_eq!(rest.next().unwrap().unwrap(), "a");
    assert!(rest.next().is_none());

    let bytes = b"\x01\x82\x18\x17";
    let mut of_reader = Deserializer::from_reader(&bytes[..]);
    let mut of_slice = Deserializer::from_slice(bytes);
    assert_eq!(u8::deserialize(&mut of_reader).unwrap(), 1);
    assert_eq!(u8::deserialize(&mut of_slice).unwrap(), 1);
    assert!(Ipld::deserialize(&mut of_reader).is_err());
    assert!(Ipld::deserialize(&mut of_slice).is_err());
    let wanted = (Some(Refusal::TrailingData), Some(1));
    assert_eq!(told(of_reader.end().unwrap_err()), wanted);
    assert_eq!(told(of_slice.end().unwrap_err()), wanted);
}

#[derive(Serialize)]
enum Each {
    Unit,
    New(u8),
    Tuple(u8, &'static str),
    Fields { b: (), a: Option<bool> },
}

/// Whatever a value is, its block is handed over once, and nothing where there is none.
#[test]
fn a_serializer_hands_blocks_over() {
    #[derive(Serialize)]
    struct Unit;
    #[derive(Serialize)]
    struct Pair(i128, char);
    fn put<T: Serialize>(serializer: &mut Serializer<Vec<u8>>, all: &mut Vec<u8>, value: T) {
        let block = to_vec(&value);
        assert_eq!(value.serialize(serializer).is_ok(), block.is_ok());
        all.extend(block.unwrap_or_default());
    }
    let (mut serializer, mut all) = (Serializer::new(Vec::new()), Vec::new());
    macro_rules! put {
        ($($value:expr),* $(,)?) => { $(put(&mut serializer, &mut all, $value);)* };
    }
    put![
        true,
        1i8,
        -2i16,
        -300i32,
        i64::MIN,
        5u8,
        6u16,
        7u32,
        u64::MAX,
        -(1i128 << 64),
        9u128
    ];
    put![
        1.5f32,
        [0.5],
        u128::MAX,
        ("a", 0.5),
        'x',
        "hi",
        (),
        Unit,
        None::<u8>,
        Some("a")
    ];
    put![
        name(b"\xf6"),
        ipld!([[name(b"\x17"), b"ab".to_vec()]]),
        Pair(-1, 'b')
    ];
    put![
        Each::Unit,
        Each::New(3),
        Each::Tuple(4, "c"),
        Each::Fields { b: (), a: None }
    ];
    put![
        BTreeMap::from([("aa", vec![1, 2]), ("b", vec![])]),
        BTreeMap::from([(1, 2)])
    ];
    put![
        BTreeMap::from([("a", BTreeMap::from([("b", 0.5)]))]),
        [[[["end"]]]]
    ];
    assert_eq!(serializer.into_inner(), all);
    assert_eq!(
        iter_from_reader::<Ipld, _>(&all[..])
            .filter(Result::is_ok)
            .count(),
        26
    );
}

#[test]
fn a_serializer_says_what_fails() {
    struct Full;
    impl Write for Full {
        fn write(&mut self, _: &[u8]) -> io::Result<usize> {
            Ok(0)
        }
        fn flush(&mut self) -> io::Result<()> {
            Ok(())
        }
    }
    let mut serializer = Serializer::new(Full);
    let error = io::Error::from([1].serialize(&mut serializer).unwrap_err());
    assert_eq!(error.kind(), ErrorKind::WriteZero);
    let error = Each::Fields { b: (), a: None }.serialize(&mut serializer);
    assert_eq!(
        io::Error::from(error.unwrap_err()).kind(),
        ErrorKind::WriteZero
    );
    let mut out = Vec::new();
    let error = to_writer(&mut out, &BTreeMap::from([("a", (1, 0.5))])).unwrap_err();
    assert_eq!(
        (error.path().collect::<Vec<_>>(), out),
        (vec!["a", "1"], vec![])
    );
}

/// Takes so many bytes, and then fails once.
struct Failing(Vec<u8>, usize);

impl Write for Failing {
    fn write(&mut self, bytes: &[u8]) -> io::Result<usize> {
        if self.1 == 0 {
            self.1 = usize::MAX;
            return Err(ErrorKind::TimedOut.into());
        }
        let count = bytes.len().min(self.1);
        self.1 -= count;
        self.0.write(&bytes[..count])
    }

    fn flush(&mut self) -> io::Result<()> {
        Ok(())
    }
}

/// What came after a part of a block would be read as the rest of it.
#[test]
fn no_block_comes_after_a_part_of_one() {
    let mut serializer = Serializer::new(Failing(vec![], 3));
    for value in [ipld!("hello"), ipld!([1]), ipld!(1)] {
        let error = value.serialize(&mut serializer).unwrap_err();
        assert_eq!(io::Error::from(error).kind(), ErrorKind::TimedOut);
    }
    assert_eq!(serializer.into_inner().0, b"\x65he");
}

#[test]
fn a_block_is_flushed() {
    let error = to_writer(io::BufWriter::new(Failing(vec![], 0)), &1).unwrap_err();
    assert_eq!(io::Error::from(error).kind(), ErrorKind::TimedOut);
    let mut out = io::BufWriter::new(Vec::new());
    DagCborCodec::encode(&mut out, &1).unwrap();
    assert_eq!(out.get_ref(), b"\x01");
}

/// A type that goes on after an error of a part has no block, not one without the part.
#[test]
fn no_part_is_passed_over() {
    use serde::ser::{SerializeMap, SerializeSeq};
    struct Skips;
    impl Serialize for Skips {
        fn serialize<S: serde::Serializer>(&self, serializer: S) -> Result<S::Ok, S::Error> {
            let mut list = serializer.serialize_seq(Some(3))?;
            let _ = list.serialize_element(&(1, 0.5)); // which begins as a list of one does
            list.serialize_element(&2)?;
            list.serialize_element(&3)?;
            list.end()
        }
    }
    struct Held;
    impl Serialize for Held {
        fn serialize<S: serde::Serializer>(&self, serializer: S) -> Result<S::Ok, S::Error> {
            let mut map = serializer.serialize_map(None)?;
            let _ = map.serialize_entry("a", &Skips);
            map.end()
        }
    }
    assert!(to_vec(&Skips).is_err() && to_vec(&Held).is_err());
    let mut serializer = Serializer::new(Vec::new());
    assert!(Skips.serialize(&mut serializer).is_err());
    [5].serialize(&mut serializer).unwrap();
    assert_eq!(serializer.into_inner(), b"\x81\x05");
}

#[test]
fn data_is_spelled() {
    let (cid, key, one) = (name(b"\xf6"), String::from("k"), Some(1));
    let map = |entries: Vec<(&str, Ipld)>| {
        Ipld::Map(
            entries
                .into_iter()
                .map(|(key, it)| (key.into(), it))
                .collect(),
        )
    };
    assert_eq!(ipld!(null), Ipld::Null);
    assert_eq!(ipld!([]), Ipld::List(vec![]));
    assert_eq!(ipld!({}), map(vec![]));
    assert_eq!(ipld!(-(1i128 << 64)), Ipld::Integer(-(1 << 64)));
    assert_eq!(
        ipld!([
            null,
            true,
            -1,
            "a",
            vec![1u8, 2],
            cid,
            [[]],
            {},
            one,
            None::<u8>,
            key.as_str(),
        ]),
        Ipld::List(vec![
            Ipld::Null,
            Ipld::Bool(true),
            Ipld::Integer(-1),
            Ipld::String("a".into()),
            Ipld::Bytes(vec![1, 2]),
            Ipld::Link(cid),
            Ipld::List(vec![Ipld::List(vec![])]),
            map(vec![]),
            Ipld::Integer(1),
            Ipld::Null,
            Ipld::String("k".into()),
        ])
    );
    assert_eq!(
        ipld!({
            "n": null,
            key.clone(): { "l": [1 + 1, null] },
            (key + "k"): 3.to_string(),
            "z": if true { 1 } else { 2 },
        }),
        map(vec![
            ("n", Ipld::Null),
            (
                "k",
                map(vec![("l", Ipld::List(vec![Ipld::Integer(2), Ipld::Null]))])
            ),
            ("kk", Ipld::String("3".into())),
            ("z", Ipld::Integer(1)),
        ])
    );
}

#[test]
fn types_out_of_data() {
    #[derive(Debug, PartialEq, Serialize, Deserialize)]
    #[serde(untagged)]
    enum Value {
        Link(dagcbor::Cid),
        Text(String),
        All(Vec<Value>),
    }
    let cid = name(b"\x17");
    let value = || Value::All(vec![Value::Link(cid), Value::Text(cid.to_string())]);
    let data = ipld!([cid, cid.to_string()]);
    assert_eq!(to_ipld(value()).unwrap(), data);
    assert_eq!(from_ipld::<Value>(data).unwrap(), value());
    assert_eq!(
        told(from_ipld::<Vec<u8>>(ipld!([1, "a"])).unwrap_err()),
        (None, Some(2))
    );
    assert!(to_ipld([0.5]).is_err());
    assert!(from_ipld::<Ipld>(ipld!(1i128 << 64)).is_err());
}

#[test]
fn a_codec_by_its_traits() {
    fn through<C: Codec<T>, T>(value: &T) -> (u64, Vec<u8>, T, T)
    where
        C::Error: std::fmt::Debug,
    {
        let (mut out, block) = (Vec::new(), C::encode_to_vec(value).unwrap());
        C::encode(&mut out, value).unwrap();
        assert_eq!(out, block);
        let of_slice = C::decode_from_slice(&block).unwrap();
        (C::CODE, out, of_slice, C::decode(&block[..]).unwrap())
    }
    let data = ipld!({ "b": [name(b"\x01"), name(b"\x02")], "a": name(b"\x01") });
    let (code, block, of_slice, of_reader) = through::<DagCborCodec, _>(&data);
    assert_eq!((code, &of_slice, &of_reader), (0x71, &data, &data));
    let links = [name(b"\x01"), name(b"\x01"), name(b"\x02")];
    assert!(DagCborCodec::links(&block).unwrap().eq(links));
    assert_eq!(
        DagCborCodec::links(b"\x18\x17").unwrap_err(),
        Refusal::NonMinimal
    );
    let trailing = [&block[..], b"\0"].concat();
    let decoded: Result<Ipld, Error> = DagCborCodec::decode(&trailing[..]);
    assert_eq!(decoded.unwrap_err().refusal(), Some(Refusal::TrailingData));
    assert!((&trailing[..]).fill_buf().is_ok());
}
