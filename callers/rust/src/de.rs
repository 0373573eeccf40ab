//! Reads types from the bytes of a block, which the library has judged before.

use crate::calls::split_item;
use crate::ser::{Name, BYTES, INTEGER, LIST, MAP, NEGATIVE, NULL, TAG, TEXT, TRUE};
use crate::{check, Error, Refusal};
use core::{marker::PhantomData, str};
use serde::de::value::{BorrowedStrDeserializer, BytesDeserializer, MapAccessDeserializer};
use serde::de::{self, Deserialize, DeserializeSeed, Error as _, Expected, Unexpected, Visitor};
use serde::forward_to_deserialize_any;
#[cfg(feature = "std")]
use {
    crate::streams::has_more,
    alloc::vec::Vec,
    serde::de::DeserializeOwned,
    std::io::{self, BufRead},
};

/// Those of a type's fields or variants.
type Names = &'static [Name];

/// By a newtype of this name serde's formats tell CIDs from bytes. The crate `cid` has the same
/// name, so its CIDs are read and written as links too.
pub(crate) const CID_NAME: &str = "$__serde__private__identifier__for__cid";

/// Options are in each other no deeper.
const MOST_OPTIONS: u32 = 256;

/// The first bytes of null, and of a link.
const FIRST_OF_NULL: u8 = 0xf6;
const FIRST_OF_LINK: u8 = 0xd8;

/// The value that a block holds. Texts and bytes may be lent by the block.
///
/// ```
/// #[derive(serde::Deserialize)]
/// struct Note<'a> {
///     text: &'a str,
///     year: Option<u16>,
/// }
///
/// let note: Note = dagcbor::from_slice(b"\xa2\x64text\x62hi\x64year\x17")?;
/// assert_eq!((note.text, note.year), ("hi", Some(23)));
///
/// let error = dagcbor::from_slice::<Note>(b"\xa2\x64text\x62hi\x64year\x20").err().unwrap();
/// assert_eq!(error.place(), Some(14));
/// assert_eq!(error.to_string(), "invalid value: integer `-1`, expected u16, at 14");
/// # Ok::<(), dagcbor::Error>(())
/// ```
pub fn from_slice<'a, T: Deserialize<'a>>(block: &'a [u8]) -> Result<T, Error> {
    check(block)?;
    read(block)
}

/// The value of the first item, and the bytes that follow it.
///
/// ```
/// let (first, rest) = dagcbor::take_from_slice::<u8>(b"\x17\xf6")?;
/// assert_eq!((first, rest), (23, &b"\xf6"[..]));
/// # Ok::<(), dagcbor::Error>(())
/// ```
pub fn take_from_slice<'a, T: Deserialize<'a>>(bytes: &'a [u8]) -> Result<(T, &'a [u8]), Error> {
    let (first, rest) = split_item(bytes)?;
    Ok((read(first)?, rest))
}

/// The value of the block that a reader gives, up to its end.
#[cfg(feature = "std")]
pub fn from_reader<T: DeserializeOwned, R: io::Read>(mut reader: R) -> Result<T, Error> {
    let mut block = Vec::new();
    reader.read_to_end(&mut block)?;
    from_slice(&block)
}

/// The value of the first block that a reader gives, which is left right after it.
///
/// ```
/// let mut reader = &b"\x17\x62hi"[..];
/// assert_eq!(dagcbor::from_reader_once::<u8, _>(&mut reader)?, 23);
/// assert_eq!(reader, b"\x62hi");
/// # Ok::<(), dagcbor::Error>(())
/// ```
#[cfg(feature = "std")]
pub fn from_reader_once<T: DeserializeOwned, R: BufRead>(reader: R) -> Result<T, Error> {
    let value = T::deserialize(&mut Deserializer::from_reader(reader));
    value.map_err(|it| it.or_at(0))
}

/// The values of the blocks that a reader gives, one after the other, up to its end.
///
/// ```
/// let values = dagcbor::iter_from_reader::<String, _>(&b"\x61a\x62hi"[..]);
/// assert_eq!(values.collect::<Result<Vec<_>, _>>()?, ["a", "hi"]);
/// # Ok::<(), dagcbor::Error>(())
/// ```
#[cfg(feature = "std")]
pub fn iter_from_reader<T: DeserializeOwned, R: BufRead>(
    reader: R,
) -> StreamDeserializer<IoReader<R>, T> {
    Deserializer::from_reader(reader).into_iter()
}

/// Reads the value of a block, which is judged.
pub(crate) fn read<'de, T: Deserialize<'de>>(block: &'de [u8]) -> Result<T, Error> {
    read_by(block, |reader| T::deserialize(reader))
}

fn read_by<'de, T>(
    block: &'de [u8],
    read: impl FnOnce(&mut Reader<'de>) -> Result<T, Error>,
) -> Result<T, Error> {
    let mut reader = Reader::new(block);
    let value = read(&mut reader).map_err(|it| it.or_at(0))?;
    if !reader.rest.is_empty() {
        return Err(Error::custom("the type leaves bytes").or_at(reader.place()));
    }
    Ok(value)
}

/// Takes blocks one after the other, each judged before its value is read: of a slice, or of a
/// reader, which is left right after the last one.
///
/// ```
/// use dagcbor::de::Deserializer;
/// use serde::Deserialize;
///
/// let mut deserializer = Deserializer::from_slice(b"\x62hi\x81\x17");
/// assert_eq!(<&str>::deserialize(&mut deserializer)?, "hi");
/// assert!(deserializer.end().is_err());
/// assert_eq!(Vec::<u8>::deserialize(&mut deserializer)?, [23]);
/// deserializer.end()?;
/// # Ok::<(), dagcbor::Error>(())
/// ```
#[derive(Debug)]
pub struct Deserializer<S> {
    source: S,
}

impl<'de> Deserializer<SliceReader<'de>> {
    /// Takes the blocks in a slice, which lends texts and bytes.
    pub fn from_slice(bytes: &'de [u8]) -> Self {
        let (rest, place) = (bytes, 0);
        Deserializer {
            source: SliceReader { rest, place },
        }
    }
}

#[cfg(feature = "std")]
impl<R: BufRead> Deserializer<IoReader<R>> {
    /// Takes the blocks that a reader gives. The deserializer lends texts and bytes of the last one.
    pub fn from_reader(reader: R) -> Self {
        Deserializer {
            source: IoReader {
                reader,
                block: Vec::new(),
                place: 0,
                at: 0,
                left: 1,
                is_given: false,
            },
        }
    }
}

impl<S: Bytes> Deserializer<S> {
    /// Refuses bytes that follow, and takes none.
    pub fn end(&mut self) -> Result<(), Error> {
        match self.source.have_more()? {
            true => Err(Refusal::TrailingData.at(self.source.place()).into()),
            false => Ok(()),
        }
    }

    /// The values of the blocks up to the end.
    #[allow(clippy::should_implement_trait)] // of a type that the caller says
    pub fn into_iter<T>(self) -> StreamDeserializer<S, T> {
        StreamDeserializer {
            blocks: self,
            is_over: false,
            value: PhantomData,
        }
    }
}

impl<S> Deserializer<S> {
    fn read<'a, 'de, T>(
        &'a mut self,
        read: impl FnOnce(&mut Reader<'de>) -> Result<T, Error>,
    ) -> Result<T, Error>
    where
        &'a mut S: Source<'de>,
    {
        let (place, block) = self.source.next_block()?;
        read_by(block, read).map_err(|it| it.further(place))
    }
}

/// The values of blocks one after the other. An error comes once, and nothing after it.
#[derive(Debug)]
pub struct StreamDeserializer<S, T> {
    blocks: Deserializer<S>,
    is_over: bool,
    value: PhantomData<T>,
}

impl<S: Bytes, T> StreamDeserializer<S, T> {
    fn next_by(
        &mut self,
        read: impl FnOnce(&mut Deserializer<S>) -> Result<T, Error>,
    ) -> Option<Result<T, Error>> {
        if self.is_over {
            return None;
        }
        let place = self.blocks.source.place();
        let value = match self.blocks.source.have_more() {
            Ok(true) => read(&mut self.blocks).map_err(|it| it.or_at(place)),
            Ok(false) => return None,
            Err(error) => Err(error),
        };
        self.is_over = value.is_err();
        Some(value)
    }
}

impl<'de, T: Deserialize<'de>> Iterator for StreamDeserializer<SliceReader<'de>, T> {
    type Item = Result<T, Error>;

    fn next(&mut self) -> Option<Self::Item> {
        self.next_by(|it| T::deserialize(it))
    }
}

#[cfg(feature = "std")]
impl<R: BufRead, T: DeserializeOwned> Iterator for StreamDeserializer<IoReader<R>, T> {
    type Item = Result<T, Error>;

    fn next(&mut self) -> Option<Self::Item> {
        self.next_by(|it| T::deserialize(it))
    }
}

/// What blocks are taken of.
mod source {
    pub trait Bytes {
        /// Where the next block begins.
        fn place(&self) -> usize;

        /// Returns true if bytes follow.
        fn have_more(&mut self) -> Result<bool, crate::Error>;
    }

    pub trait Source<'de> {
        /// The next block, judged, and where it begins.
        fn next_block(self) -> Result<(usize, &'de [u8]), crate::Error>;
    }
}

use source::{Bytes, Source};

/// Bytes in memory.
#[derive(Debug)]
pub struct SliceReader<'de> {
    rest: &'de [u8],
    place: usize,
}

impl Bytes for SliceReader<'_> {
    fn place(&self) -> usize {
        self.place
    }

    fn have_more(&mut self) -> Result<bool, Error> {
        Ok(!self.rest.is_empty())
    }
}

impl<'de> Source<'de> for &mut SliceReader<'de> {
    fn next_block(self) -> Result<(usize, &'de [u8]), Error> {
        let place = self.place;
        let (first, rest) = split_item(self.rest).map_err(|it| Error::from(it).further(place))?;
        self.rest = rest;
        self.place += first.len();
        Ok((place, first))
    }
}

/// The least number of bytes of a reader that are looked at, if it has them.
#[cfg(feature = "std")]
const PIECE: usize = 512;

/// Bytes that are read.
#[cfg(feature = "std")]
#[derive(Debug)]
pub struct IoReader<R> {
    reader: R,
    block: Vec<u8>, // as far as it is read
    place: usize,   // where it begins
    at: usize,      // so far its heads are passed
    left: u64,      // items of it that follow there
    is_given: bool,
}

#[cfg(feature = "std")]
impl<R: BufRead> IoReader<R> {
    /// Returns true if no more bytes are needed: the block's last item ends, or what follows begins no
    /// item.
    fn is_read(&mut self) -> bool {
        while self.left > 0 {
            let mut rest = Reader::new(self.block.get(self.at..).unwrap_or_default());
            match (rest.head().map(after_head), rest.first()) {
                (Ok((payload, items)), _) => {
                    let payload = usize::try_from(payload).unwrap_or(usize::MAX);
                    self.at = (self.at + rest.place()).saturating_add(payload);
                    self.left = items.saturating_add(self.left - 1);
                }
                (_, Ok(first)) if first % 32 > 27 => (self.at, self.left) = (self.at + 1, 0),
                _ => return false,
            }
        }
        self.at <= self.block.len()
    }

    /// Reads the block, as far as the reader has it, and no byte after it.
    fn fill(&mut self) -> Result<(), Error> {
        while !self.is_read() && has_more(&mut self.reader)? {
            let piece = self.reader.fill_buf()?;
            let before = self.block.len();
            let count = piece.len().min(before.max(PIECE));
            self.block.extend_from_slice(&piece[..count]);
            if self.is_read() {
                self.block.truncate(self.at);
            }
            self.reader.consume(self.block.len() - before);
        }
        Ok(())
    }
}

#[cfg(feature = "std")]
impl<R: BufRead> Bytes for IoReader<R> {
    fn place(&self) -> usize {
        self.place + if self.is_given { self.block.len() } else { 0 }
    }

    fn have_more(&mut self) -> Result<bool, Error> {
        let is_begun = !self.is_given && !self.block.is_empty();
        Ok(is_begun || has_more(&mut self.reader)?)
    }
}

#[cfg(feature = "std")]
impl<'de, R: BufRead> Source<'de> for &'de mut IoReader<R> {
    fn next_block(self) -> Result<(usize, &'de [u8]), Error> {
        if self.is_given {
            self.place += self.block.len();
            self.block.clear();
            (self.at, self.left, self.is_given) = (0, 1, false);
        }
        self.fill()?;
        check(&self.block).map_err(|it| Error::from(it).further(self.place))?;
        self.is_given = true;
        Ok((self.place, &self.block))
    }
}

/// What is left of a block. The library has judged it: here the code only sees to it that nothing is
/// read after its end.
struct Reader<'de> {
    rest: &'de [u8],
    length: usize, // of the block
    options: u32,
}

/// How many bytes of a payload, and how many items, are of the item with such a head.
fn after_head((major, argument): (u8, u64)) -> (u64, u64) {
    match major {
        BYTES | TEXT => (argument, 0),
        LIST => (0, argument),
        MAP => (0, argument.saturating_mul(2)),
        TAG => (0, 1),
        _ => (0, 0),
    }
}

/// Never, of a block.
#[cold]
fn no_block() -> Error {
    Error::custom("the bytes are no block, which the library says they are")
}

impl<'de> Reader<'de> {
    fn new(block: &'de [u8]) -> Self {
        Reader {
            rest: block,
            length: block.len(),
            options: 0,
        }
    }

    /// The first byte of the next item.
    #[inline(always)]
    fn first(&self) -> Result<u8, Error> {
        self.rest.first().copied().ok_or_else(no_block)
    }

    /// Passes the head of an item: its major type, and its argument.
    #[inline(always)]
    fn head(&mut self) -> Result<(u8, u64), Error> {
        let (first, rest) = self.rest.split_first().ok_or_else(no_block)?;
        let (argument, rest) = match (first % 32, rest) {
            (n @ 0..=23, rest) => (n.into(), rest),
            (24, [a, rest @ ..]) => ((*a).into(), rest),
            (25, [a, b, rest @ ..]) => (u16::from_be_bytes([*a, *b]).into(), rest),
            (26, [a, b, c, d, rest @ ..]) => (u32::from_be_bytes([*a, *b, *c, *d]).into(), rest),
            (27, [a, b, c, d, e, f, g, h, rest @ ..]) => {
                (u64::from_be_bytes([*a, *b, *c, *d, *e, *f, *g, *h]), rest)
            }
            _ => return Err(no_block()),
        };
        self.rest = rest;
        Ok((first / 32, argument))
    }

    /// Passes this many bytes.
    #[inline]
    fn bytes(&mut self, count: u64) -> Result<&'de [u8], Error> {
        if count > self.rest.len() as u64 {
            return Err(no_block());
        }
        let (bytes, rest) = self.rest.split_at(count as usize);
        self.rest = rest;
        Ok(bytes)
    }

    #[inline]
    fn text(&mut self, count: u64) -> Result<&'de str, Error> {
        str::from_utf8(self.bytes(count)?).map_err(|_| no_block())
    }

    /// Passes null if it is next, and returns true then.
    #[inline]
    fn has_null(&mut self) -> bool {
        let found = self.rest.first() == Some(&FIRST_OF_NULL);
        self.rest = &self.rest[usize::from(found)..];
        found
    }

    /// Passes an item, with what is in it.
    fn pass(&mut self) -> Result<(), Error> {
        let mut left = 1;
        while left > 0 {
            let (payload, items) = after_head(self.head()?);
            self.bytes(payload)?;
            left = items.saturating_add(left - 1);
        }
        Ok(())
    }

    /// Where the next item stands in the block.
    #[inline]
    fn place(&self) -> usize {
        self.length - self.rest.len()
    }

    /// Refuses the next item, which is not of the sort that the type reads.
    #[cold]
    fn unwanted<T>(&mut self, expected: &dyn Expected) -> Result<T, Error> {
        let place = self.place();
        let found = match self.head()? {
            (INTEGER, n) => Unexpected::Unsigned(n),
            (NEGATIVE, _) => Unexpected::Other("integer below 0"),
            (BYTES, count) => Unexpected::Bytes(self.bytes(count)?),
            (TEXT, count) => Unexpected::Str(self.text(count)?),
            (LIST, _) => Unexpected::Other("list"),
            (MAP, _) => Unexpected::Other("map"),
            (TAG, _) => Unexpected::Other("link"),
            (_, NULL) => Unexpected::Other("null"),
            (_, value) => Unexpected::Bool(value == TRUE),
        };
        Err(Error::invalid_type(found, expected).or_at(place))
    }

    /// The value of an item with a first byte that is wanted. If the type refuses it, what is
    /// said without a place gets the place of the item.
    #[inline(always)]
    fn visit<V: Visitor<'de>>(
        &mut self,
        is_wanted: impl Fn(u8) -> bool,
        visitor: V,
    ) -> Result<V::Value, Error> {
        let place = self.place();
        if !is_wanted(self.first()?) {
            return self.unwanted(&visitor);
        }
        let value = match self.head()? {
            (INTEGER, n) => visitor.visit_u64(n),
            (NEGATIVE, n) => match i64::try_from(n) {
                Ok(n) => visitor.visit_i64(-1 - n),
                Err(_) => visitor.visit_i128(-1 - i128::from(n)),
            },
            (BYTES, count) => visitor.visit_borrowed_bytes(self.bytes(count)?),
            (TEXT, count) => visitor.visit_borrowed_str(self.text(count)?),
            (LIST, count) => self.parts(count, |parts| visitor.visit_seq(parts)),
            (MAP, count) => self.parts(2 * count, |parts| visitor.visit_map(parts)),
            (TAG, _) => {
                let (_, count) = self.head()?;
                let cid = self.bytes(count)?.get(1..).unwrap_or_default();
                visitor.visit_newtype_struct(Link(cid))
            }
            (_, NULL) => visitor.visit_none(),
            (_, value) => visitor.visit_bool(value == TRUE),
        };
        value.map_err(|it| it.or_at(place))
    }

    /// The value of all parts of a list, or of all keys and values of a map.
    #[inline]
    fn parts<T>(
        &mut self,
        count: u64,
        read: impl FnOnce(&mut Parts<'_, 'de>) -> Result<T, Error>,
    ) -> Result<T, Error> {
        let mut parts = Parts {
            reader: self,
            left: count,
        };
        let value = read(&mut parts)?;
        match parts.left {
            0 => Ok(value),
            left => Err(Error::custom(format_args!("the type leaves {left} parts"))),
        }
    }
}

/// The bytes of a link. What asks for a newtype is shown one, of bytes. What takes anything, as
/// serde where it holds a value back, is shown a newtype in a newtype: no other item is one.
struct Link<'a>(&'a [u8]);

impl<'de> de::Deserializer<'de> for Link<'_> {
    type Error = Error;

    fn deserialize_any<V: Visitor<'de>>(self, visitor: V) -> Result<V::Value, Error> {
        visitor.visit_newtype_struct(BytesDeserializer::new(self.0))
    }

    fn deserialize_bytes<V: Visitor<'de>>(self, visitor: V) -> Result<V::Value, Error> {
        visitor.visit_bytes(self.0)
    }

    fn deserialize_byte_buf<V: Visitor<'de>>(self, visitor: V) -> Result<V::Value, Error> {
        visitor.visit_bytes(self.0)
    }

    fn deserialize_newtype_struct<V: Visitor<'de>>(
        self,
        _: &'static str,
        visitor: V,
    ) -> Result<V::Value, Error> {
        visitor.visit_newtype_struct(self)
    }

    fn is_human_readable(&self) -> bool {
        false
    }

    forward_to_deserialize_any! {
        bool i8 i16 i32 i64 i128 u8 u16 u32 u64 u128 f32 f64 char str string option unit
        unit_struct seq tuple tuple_struct map struct enum identifier ignored_any
    }
}

/// The methods of a reader of a block: those that read an item of one sort, by its first byte, and
/// others; and those of what takes blocks, which read the next one by these.
macro_rules! deserializers {
    (
        sorts {$(
            $sort:pat => $($method:ident($($name:ident: $type:ty),*))*;
        )*}
        others {$(
            $other:ident($($part:ident: $of:ty),*) $self:ident, $visitor:ident => $value:expr;
        )*}
    ) => {
        impl<'de> de::Deserializer<'de> for &mut Reader<'de> {
            type Error = Error;

            $($(#[inline]
            fn $method<V: Visitor<'de>>(
                self,
                $($name: $type,)*
                visitor: V,
            ) -> Result<V::Value, Error> {
                self.visit(|it| matches!(it, $sort), visitor)
            })*)*

            $(fn $other<V: Visitor<'de>>(
                $self,
                $($part: $of,)*
                $visitor: V,
            ) -> Result<V::Value, Error> {
                $value
            })*

            fn is_human_readable(&self) -> bool {
                false
            }
        }

        impl<'de, 'a, S> de::Deserializer<'de> for &'a mut Deserializer<S>
        where
            &'a mut S: Source<'de>,
        {
            type Error = Error;

            $($(fn $method<V: Visitor<'de>>(
                self,
                $($name: $type,)*
                visitor: V,
            ) -> Result<V::Value, Error> {
                self.read(|it| it.$method($($name,)* visitor))
            })*)*

            $(fn $other<V: Visitor<'de>>(
                self,
                $($part: $of,)*
                visitor: V,
            ) -> Result<V::Value, Error> {
                self.read(|it| it.$other($($part,)* visitor))
            })*

            fn is_human_readable(&self) -> bool {
                false
            }
        }
    };
}

deserializers! {
    sorts {
        _ => deserialize_any();
        0x00..=0x3b =>
            deserialize_u8() deserialize_u16() deserialize_u32() deserialize_u64()
            deserialize_i8() deserialize_i16() deserialize_i32() deserialize_i64()
            deserialize_i128() deserialize_u128();
        0x40..=0x5b => deserialize_bytes() deserialize_byte_buf();
        0x60..=0x7b =>
            deserialize_char() deserialize_str() deserialize_string() deserialize_identifier();
        0x80..=0x9b =>
            deserialize_seq() deserialize_tuple(_count: usize)
            deserialize_tuple_struct(_name: Name, _count: usize);
        0xa0..=0xbb => deserialize_map() deserialize_struct(_name: Name, _fields: Names);
        0xf4 | 0xf5 => deserialize_bool();
        0xf9..=0xfb => deserialize_f32() deserialize_f64(); // which no block has
    }
    others {
        deserialize_unit() self, visitor => {
            if self.has_null() {
                return visitor.visit_unit();
            }
            self.unwanted(&visitor)
        };
        deserialize_unit_struct(_name: Name) self, visitor => self.deserialize_unit(visitor);
        deserialize_option() self, visitor => {
            if self.has_null() {
                return visitor.visit_none();
            }
            if self.options == MOST_OPTIONS {
                let said = "the type has too many options in each other";
                return Err(Error::custom(said).or_at(self.place()));
            }
            self.options += 1;
            let value = visitor.visit_some(&mut *self);
            self.options -= 1;
            value
        };
        deserialize_newtype_struct(name: Name) self, visitor => {
            if name == CID_NAME {
                return self.visit(|first| first == FIRST_OF_LINK, visitor);
            }
            visitor.visit_newtype_struct(self)
        };
        // The name of a variant alone, or a map of one entry from its name to its data.
        deserialize_enum(_name: Name, _variants: Names) self, visitor => {
            let place = self.place();
            let value = match self.first()? {
                0x60..=0x7b => {
                    let (_, count) = self.head()?;
                    visitor.visit_enum(BorrowedStrDeserializer::new(self.text(count)?))
                }
                0xa1 => {
                    let (_, count) = self.head()?;
                    self.parts(2 * count, |it| visitor.visit_enum(MapAccessDeserializer::new(it)))
                }
                _ => return self.unwanted(&visitor),
            };
            value.map_err(|it| it.or_at(place))
        };
        deserialize_ignored_any() self, visitor => {
            self.pass()?;
            visitor.visit_unit()
        };
    }
}

/// The parts of a list, or the keys and values of a map, that are left.
struct Parts<'a, 'de> {
    reader: &'a mut Reader<'de>,
    left: u64,
}

impl<'de> Parts<'_, 'de> {
    #[inline]
    fn next<S: DeserializeSeed<'de>>(&mut self, seed: S) -> Result<Option<S::Value>, Error> {
        match self.left {
            0 => Ok(None),
            _ => self.part(seed).map(Some),
        }
    }

    /// The next part. What is said of it without a place, as of what was held back, gets its place.
    #[inline]
    fn part<S: DeserializeSeed<'de>>(&mut self, seed: S) -> Result<S::Value, Error> {
        let place = self.reader.place();
        self.left -= 1;
        let part = seed.deserialize(&mut *self.reader);
        part.map_err(|it| it.or_at(place))
    }
}

impl<'de> de::SeqAccess<'de> for &mut Parts<'_, 'de> {
    type Error = Error;

    #[inline]
    fn next_element_seed<S: DeserializeSeed<'de>>(
        &mut self,
        seed: S,
    ) -> Result<Option<S::Value>, Error> {
        self.next(seed)
    }

    fn size_hint(&self) -> Option<usize> {
        Some(self.left as usize) // at most as many as the block has bytes
    }
}

impl<'de> de::MapAccess<'de> for &mut Parts<'_, 'de> {
    type Error = Error;

    #[inline]
    fn next_key_seed<S: DeserializeSeed<'de>>(
        &mut self,
        seed: S,
    ) -> Result<Option<S::Value>, Error> {
        if self.left % 2 == 1 {
            return Err(Error::custom("the type passes a value").or_at(self.reader.place()));
        }
        self.next(seed)
    }

    #[inline]
    fn next_value_seed<S: DeserializeSeed<'de>>(&mut self, seed: S) -> Result<S::Value, Error> {
        if self.left % 2 == 0 {
            return Err(Error::custom("the type passes a key").or_at(self.reader.place()));
        }
        self.part(seed)
    }

    fn size_hint(&self) -> Option<usize> {
        Some(self.left as usize / 2)
    }
}
