//! Data without types, and CIDs, by serde.

use crate::de::{read, CID_NAME};
use crate::{to_vec, Cid, Error};
use alloc::{collections::BTreeMap, string::String, string::ToString, vec::Vec};
use core::fmt;
use serde::de::value::{MapAccessDeserializer, SeqAccessDeserializer};
use serde::de::{self, Deserialize, DeserializeOwned, Deserializer, MapAccess, SeqAccess, Visitor};
use serde::ser::{Serialize, Serializer};

/// The data of a block.
///
/// ```
/// use dagcbor::{from_slice, Ipld};
///
/// let data: Ipld = from_slice(b"\xa1\x65years\x82\x17\x18\x18")?;
/// assert_eq!(data.get("years/1"), Some(&Ipld::from(24)));
/// assert_eq!(data.get("years").and_then(Ipld::as_list).map(<[_]>::len), Some(2));
/// # Ok::<(), dagcbor::Error>(())
/// ```
#[derive(Clone, Debug, PartialEq, Eq, PartialOrd, Ord, Hash)]
pub enum Ipld {
    /// null
    Null,
    /// false or true
    Bool(bool),
    /// an integer: one that is not in -2^64 .. 2^64 - 1 has no block
    Integer(i128),
    /// a text
    String(String),
    /// a byte string
    Bytes(Vec<u8>),
    /// a list
    List(Vec<Ipld>),
    /// a map
    Map(BTreeMap<String, Ipld>),
    /// a link
    Link(Cid),
}

impl Ipld {
    /// What a path leads to, as in [`find`](crate::find): keys of maps and indices of
    /// lists, with `/` between. What is empty there is not a step, and no step reaches a key with a
    /// `/` in it; the empty path is the data itself.
    pub fn get(&self, path: &str) -> Option<&Ipld> {
        let mut found = self;
        for step in path.split('/').filter(|it| !it.is_empty()) {
            found = match found {
                Ipld::Map(map) => map.get(step)?,
                Ipld::List(list) => list.get(index_of(step)?)?,
                _ => return None,
            };
        }
        Some(found)
    }
}

/// The index that the step is, in decimal without a sign and without zeros in front.
fn index_of(step: &str) -> Option<usize> {
    let is_plain =
        step.bytes().all(|it| it.is_ascii_digit()) && (step == "0" || !step.starts_with('0'));
    is_plain.then(|| step.parse().ok())?
}

/// What the data is, if it is that; and the data of what there is.
macro_rules! as_and_from {
    ($($variant:ident $method:ident $seen:ty, $it:ident => $see:expr; $($type:ty),*;)*) => {
        impl Ipld {$(
            /// What it is, if it is one.
            pub fn $method(&self) -> Option<$seen> {
                match self {
                    Ipld::$variant($it) => Some($see),
                    _ => None,
                }
            }
        )*}

        $($(impl From<$type> for Ipld {
            fn from(value: $type) -> Ipld {
                Ipld::$variant(value.into())
            }
        })*)*
    };
}

as_and_from! {
    Bool as_bool bool, it => *it; bool;
    Integer as_integer i128, it => *it; i8, i16, i32, i64, i128, u8, u16, u32, u64;
    String as_str &str, it => it; String, &str;
    Bytes as_bytes &[u8], it => it; Vec<u8>, &[u8];
    List as_list &[Ipld], it => it; Vec<Ipld>;
    Map as_map &BTreeMap<String, Ipld>, it => it; BTreeMap<String, Ipld>;
    Link as_link &Cid, it => it; Cid;
}

impl<T: Into<Ipld>> From<Option<T>> for Ipld {
    fn from(value: Option<T>) -> Ipld {
        value.map_or(Ipld::Null, T::into)
    }
}

/// The data of a value's block.
///
/// ```
/// use dagcbor::{from_ipld, ipld, to_ipld};
///
/// let data = to_ipld(("hi", 23))?;
/// assert_eq!(data, ipld!(["hi", 23]));
/// assert_eq!(from_ipld::<(String, u8)>(data)?, ("hi".into(), 23));
/// # Ok::<(), dagcbor::Error>(())
/// ```
pub fn to_ipld<T: Serialize>(value: T) -> Result<Ipld, Error> {
    read(&to_vec(&value)?)
}

/// The value of the data's block. A place in an error is one in that block.
pub fn from_ipld<T: DeserializeOwned>(data: Ipld) -> Result<T, Error> {
    read(&to_vec(&data)?)
}

/// Makes an [`Ipld`], spelled as data: `null`, lists, maps, and what has a `From`. A key is anything
/// that has an `Into<String>`.
///
/// ```
/// use dagcbor::{ipld, name, Ipld};
///
/// let (key, years) = ("years", vec![Ipld::from(23)]);
/// let data = ipld!({ "of": name(b"\xf6"), key: years, "more": [null, { "a": -1 + 3 }, true] });
/// assert_eq!(data.get("of").and_then(Ipld::as_link), Some(&name(b"\xf6")));
/// assert_eq!(data.get("years/0"), Some(&ipld!(23)));
/// assert_eq!(data.get("more"), Some(&ipld!([null, { "a": 2 }, true])));
/// ```
#[macro_export]
macro_rules! ipld {
    (null) => { $crate::Ipld::Null };
    ([$($parts:tt)*]) => { $crate::Ipld::List($crate::ipld!(@list [] $($parts)*)) };
    ({$($parts:tt)*}) => { $crate::Ipld::Map($crate::ipld!(@map [] [] $($parts)*)) };
    // The parts that are left: one token, or an expression of more. Those before are done.
    (@list [$($done:expr,)*]) => { $crate::__data::Vec::from([$($done,)*]) };
    (@list [$($done:expr,)*] $next:tt $(, $($left:tt)*)?) => {
        $crate::ipld!(@list [$($done,)* $crate::ipld!($next),] $($($left)*)?)
    };
    (@list [$($done:expr,)*] $next:expr $(, $($left:tt)*)?) => {
        $crate::ipld!(@list [$($done,)* $crate::ipld!($next),] $($($left)*)?)
    };
    // The same of entries, with the tokens of the next key.
    (@map [$($done:expr,)*] []) => { $crate::__data::BTreeMap::from([$($done,)*]) };
    (@map [$($done:expr,)*] [$($key:tt)+] : $next:tt $(, $($left:tt)*)?) => {
        $crate::ipld!(@map [$($done,)* (($($key)+).into(), $crate::ipld!($next)),] [] $($($left)*)?)
    };
    (@map [$($done:expr,)*] [$($key:tt)+] : $next:expr $(, $($left:tt)*)?) => {
        $crate::ipld!(@map [$($done,)* (($($key)+).into(), $crate::ipld!($next)),] [] $($($left)*)?)
    };
    (@map [$($done:expr,)*] [$($key:tt)*] $token:tt $($left:tt)*) => {
        $crate::ipld!(@map [$($done,)*] [$($key)* $token] $($left)*)
    };
    ($data:expr) => { $crate::Ipld::from($data) };
}

impl Serialize for Ipld {
    fn serialize<S: Serializer>(&self, serializer: S) -> Result<S::Ok, S::Error> {
        match self {
            Ipld::Null => serializer.serialize_unit(),
            Ipld::Bool(value) => serializer.serialize_bool(*value),
            // What holds a value back takes no 128 bits.
            Ipld::Integer(n) => match (i64::try_from(*n), u64::try_from(*n)) {
                (Ok(n), _) => serializer.serialize_i64(n),
                (_, Ok(n)) => serializer.serialize_u64(n),
                _ => serializer.serialize_i128(*n),
            },
            Ipld::String(text) => serializer.serialize_str(text),
            Ipld::Bytes(bytes) => serializer.serialize_bytes(bytes),
            Ipld::List(list) => serializer.collect_seq(list),
            Ipld::Map(map) => serializer.collect_map(map),
            Ipld::Link(cid) => cid.serialize(serializer),
        }
    }
}

impl<'de> Deserialize<'de> for Ipld {
    fn deserialize<D: Deserializer<'de>>(deserializer: D) -> Result<Ipld, D::Error> {
        deserializer.deserialize_any(OfIpld)
    }
}

struct OfIpld;

/// The methods of a visitor that take what has a `From`.
macro_rules! taken {
    ($($method:ident $type:ty)*) => {$(
        fn $method<E: de::Error>(self, value: $type) -> Result<Ipld, E> {
            Ok(value.into())
        }
    )*};
}

impl<'de> Visitor<'de> for OfIpld {
    type Value = Ipld;

    fn expecting(&self, f: &mut fmt::Formatter<'_>) -> fmt::Result {
        f.write_str("data other than floats")
    }

    taken! {
        visit_bool bool visit_i64 i64 visit_u64 u64 visit_i128 i128
        visit_str &str visit_string String visit_bytes &[u8] visit_byte_buf Vec<u8>
    }

    fn visit_u128<E: de::Error>(self, n: u128) -> Result<Ipld, E> {
        i128::try_from(n).map(Ipld::Integer).map_err(E::custom)
    }

    fn visit_unit<E: de::Error>(self) -> Result<Ipld, E> {
        Ok(Ipld::Null)
    }

    fn visit_none<E: de::Error>(self) -> Result<Ipld, E> {
        Ok(Ipld::Null)
    }

    fn visit_some<D: Deserializer<'de>>(self, deserializer: D) -> Result<Ipld, D::Error> {
        Ipld::deserialize(deserializer)
    }

    fn visit_newtype_struct<D: Deserializer<'de>>(self, link: D) -> Result<Ipld, D::Error> {
        OfCid.visit_newtype_struct(link).map(Ipld::Link)
    }

    fn visit_seq<A: SeqAccess<'de>>(self, parts: A) -> Result<Ipld, A::Error> {
        Deserialize::deserialize(SeqAccessDeserializer::new(parts)).map(Ipld::List)
    }

    fn visit_map<A: MapAccess<'de>>(self, parts: A) -> Result<Ipld, A::Error> {
        Deserialize::deserialize(MapAccessDeserializer::new(parts)).map(Ipld::Map)
    }
}

/// A link; in formats for people, such as JSON, the text.
impl Serialize for Cid {
    fn serialize<S: Serializer>(&self, serializer: S) -> Result<S::Ok, S::Error> {
        if serializer.is_human_readable() {
            return serializer.serialize_newtype_struct(CID_NAME, &format_args!("{self}"));
        }
        serializer.serialize_newtype_struct(CID_NAME, &AsBytes(self.as_bytes()))
    }
}

struct AsBytes<'a>(&'a [u8]);

impl Serialize for AsBytes<'_> {
    fn serialize<S: Serializer>(&self, serializer: S) -> Result<S::Ok, S::Error> {
        serializer.serialize_bytes(self.0)
    }
}

impl<'de> Deserialize<'de> for Cid {
    /// What serde holds back, as for an untagged enum, it says to be for people.
    fn deserialize<D: Deserializer<'de>>(deserializer: D) -> Result<Cid, D::Error> {
        if deserializer.is_human_readable() && is_of_a_block::<D::Error>() {
            return deserializer.deserialize_any(OfHeldLink);
        }
        deserializer.deserialize_newtype_struct(CID_NAME, OfCid)
    }
}

/// Takes the bytes of a link, in whatever newtypes; and a text, of a format for people.
struct OfCid;

impl<'de> Visitor<'de> for OfCid {
    type Value = Cid;

    fn expecting(&self, f: &mut fmt::Formatter<'_>) -> fmt::Result {
        f.write_str("a CID")
    }

    fn visit_newtype_struct<D: Deserializer<'de>>(self, deserializer: D) -> Result<Cid, D::Error> {
        if deserializer.is_human_readable() {
            return deserializer.deserialize_any(self);
        }
        deserializer.deserialize_bytes(self)
    }

    fn visit_bytes<E: de::Error>(self, bytes: &[u8]) -> Result<Cid, E> {
        Cid::try_from(bytes).map_err(E::custom)
    }

    fn visit_str<E: de::Error>(self, text: &str) -> Result<Cid, E> {
        text.parse().map_err(E::custom)
    }
}

/// Takes a link of a block that serde held back: a newtype in a newtype, of which a newtype around
/// the CID has taken one. No other item is one, so a text or bytes are no link.
struct OfHeldLink;

impl<'de> Visitor<'de> for OfHeldLink {
    type Value = Cid;

    fn expecting(&self, f: &mut fmt::Formatter<'_>) -> fmt::Result {
        OfCid.expecting(f)
    }

    fn visit_newtype_struct<D: Deserializer<'de>>(self, link: D) -> Result<Cid, D::Error> {
        OfCid.visit_newtype_struct(link)
    }
}

/// Returns true if what is read with such errors is a block: other formats' errors say more than the
/// name.
fn is_of_a_block<E: de::Error>() -> bool {
    E::missing_field(CID_NAME).to_string() == CID_NAME
}
