//! Writes values as blocks: bytes, which the library judges.

use crate::de::CID_NAME;
use crate::{check, Cid, Error, Refusal};
use alloc::{string::String, vec::Vec};
use core::{cmp::Ordering, ops::Range};
use serde::ser::{self, Error as _, Serialize};
#[cfg(feature = "std")]
use {crate::streams::Whole, std::io::Write};

/// The most lists and maps that may be around a value.
const MOST_LEVELS: usize = 127;

/// More entries than these are taken by the lengths of their keys at first, which is enough if
/// texts came in order.
const FEW_ENTRIES: usize = 20;

/// Texts of at most this many bytes have a head of one byte.
const SHORT: usize = 23;

/// The bytes for which a block gets room at first, and the entries for which maps do.
const ROOM: usize = 1024;
const ROOM_OF_ENTRIES: usize = 32;

/// Room for no more entries is taken before they come.
const MOST_ENTRIES: usize = 1 << 16;

/// Returns the block of a value. Keys of maps come in the order of blocks, whatever the value's order.
///
/// ```
/// let of = dagcbor::name(b"\xf6");
/// #[derive(serde::Serialize)]
/// struct Note {
///     year: u16,
///     of: dagcbor::Cid, // a link
/// }
///
/// let block = dagcbor::to_vec(&Note { year: 23, of })?;
/// assert_eq!(block[..9], *b"\xa2\x62of\xd8\x2a\x58\x25\0");
///
/// let error = dagcbor::to_vec(&[(1, Some(0.5))]).unwrap_err();
/// assert!(error.path().eq(["0", "1"]));
/// assert_eq!(error.to_string(), "floats are not written, at 0/1");
/// # Ok::<(), dagcbor::Error>(())
/// ```
pub fn to_vec<T: Serialize + ?Sized>(value: &T) -> Result<Vec<u8>, Error> {
    let mut writer = Writer::default();
    value.serialize(&mut writer)?;
    match writer.judged()? {
        small if small.len() < ROOM / 2 => Ok(small.to_vec()), // without the room that is left
        _ => Ok(writer.block),
    }
}

/// Writes the block of a value: nothing, if the value has none. It flushes the writer, because one
/// that ends here, such as a `BufWriter`, would hide an error.
#[cfg(feature = "std")]
pub fn to_writer<W: Write, T: Serialize + ?Sized>(writer: W, value: &T) -> Result<(), Error> {
    let mut serializer = Serializer::new(writer);
    value.serialize(&mut serializer)?;
    Ok(serializer.out.flush()?)
}

/// Writes blocks one after the other: each when it is whole and judged, and nothing of a value that
/// has none. After an error of the writer, a part of a block may be written: each later call returns
/// an error of that kind, and writes nothing.
///
/// ```
/// use dagcbor::ser::Serializer;
/// use serde::Serialize;
///
/// let mut serializer = Serializer::new(Vec::new());
/// "hi".serialize(&mut serializer)?;
/// assert!([1.5].serialize(&mut serializer).is_err());
/// [23].serialize(&mut serializer)?;
/// assert_eq!(serializer.into_inner(), b"\x62hi\x81\x17");
/// # Ok::<(), dagcbor::Error>(())
/// ```
#[cfg(feature = "std")]
#[derive(Debug)]
pub struct Serializer<W> {
    out: Whole<W>,
    writer: Writer,
}

#[cfg(feature = "std")]
impl<W> Serializer<W> {
    /// One that writes to the writer.
    pub fn new(writer: W) -> Serializer<W> {
        let (out, writer) = (Whole::new(writer), Writer::default());
        Serializer { out, writer }
    }

    /// The writer, with all handed over to it, and not flushed.
    pub fn into_inner(self) -> W {
        self.out.writer
    }
}

#[cfg(feature = "std")]
impl<W: Write> Serializer<W> {
    /// Puts a value that is not a list or a map, and hands its block over.
    fn put(&mut self, put: impl FnOnce(&mut Writer) -> Result<(), Error>) -> Result<(), Error> {
        self.writer.clear();
        put(&mut self.writer)?;
        Ok(self.out.write_all(self.writer.judged()?)?)
    }

    /// Begins a list or a map, whose block is handed over at its end.
    fn begin<'a>(
        &'a mut self,
        begin: impl FnOnce(&'a mut Writer) -> Result<Parts<'a>, Error>,
    ) -> Result<Parts<'a>, Error> {
        self.writer.clear();
        let mut parts = begin(&mut self.writer)?;
        parts.out = Some(&mut self.out);
        Ok(parts)
    }
}

/// That of a type, a field or a variant.
pub(crate) type Name = &'static str;

// The major types of heads, and arguments of the last one.
pub(crate) const INTEGER: u8 = 0;
pub(crate) const NEGATIVE: u8 = 1;
pub(crate) const BYTES: u8 = 2;
pub(crate) const TEXT: u8 = 3;
pub(crate) const LIST: u8 = 4;
pub(crate) const MAP: u8 = 5;
pub(crate) const TAG: u8 = 6;
const SIMPLE: u8 = 7;
const FALSE: u64 = 20;
pub(crate) const TRUE: u64 = 21;
pub(crate) const NULL: u64 = 22;

/// Puts the shortest head after the bytes.
#[inline(always)]
fn put_head(out: &mut Vec<u8>, major: u8, n: u64) {
    let first = |information| 32 * major + information;
    match n {
        0..=23 => out.push(first(n as u8)),
        24..=0xff => out.extend_from_slice(&[first(24), n as u8]),
        0x100..=0xffff => {
            let [a, b] = (n as u16).to_be_bytes();
            out.extend_from_slice(&[first(25), a, b]);
        }
        0x1_0000..=0xffff_ffff => {
            out.push(first(26));
            out.extend_from_slice(&(n as u32).to_be_bytes());
        }
        _ => {
            out.push(first(27));
            out.extend_from_slice(&n.to_be_bytes());
        }
    }
}

/// As above, not inlined: most texts are short.
#[inline(never)]
fn put_long_head(out: &mut Vec<u8>, major: u8, n: u64) {
    put_head(out, major, n);
}

/// The number that up to eight bytes spell.
#[inline]
fn number_of(bytes: &[u8]) -> u64 {
    match bytes.try_into() {
        Ok(eight) => u64::from_be_bytes(eight),
        Err(_) => bytes.iter().fold(0, |n, it| n << 8 | u64::from(*it)),
    }
}

/// An entry of a map that is written: where it begins, with the head of its key, and where it ends,
/// which is told when entries are sorted.
#[derive(Clone, Copy, Debug)]
struct Entry {
    front: u64, // of the key: eight bytes, zeros after a shorter one
    start: usize,
    end: usize,
}

/// That of the key of a short name.
#[inline(always)]
fn front_of(name: &[u8]) -> u64 {
    let head = 32 * TEXT + name.len() as u8;
    let at = |at| *name.get(at).unwrap_or(&0);
    u64::from_be_bytes([head, at(0), at(1), at(2), at(3), at(4), at(5), at(6)])
}

impl Entry {
    /// That of the key that ends the block.
    #[inline]
    fn of_last(block: &[u8], start: usize) -> Entry {
        let end = block.len();
        let from = end.min(start + 8).wrapping_sub(8);
        let bytes = block.get(from..).and_then(|it| it.get(..8));
        let front = bytes.map_or_else(|| number_of(&block[start..]), number_of);
        let front = front << (64 - 8 * (end - start).min(8)); // without what is before the key
        let end = 0;
        Entry { front, start, end }
    }

    /// The key, without its head.
    fn key<'a>(&self, block: &'a [u8]) -> &'a [u8] {
        let (information, rest) = (block[self.start] % 32, &block[self.start + 1..]);
        let (wide, length) = match information {
            0..=23 => (0, information.into()),
            _ => {
                let wide = 1 << (information - 24);
                (wide, number_of(&rest[..wide]))
            }
        };
        &rest[wide..][..length as usize]
    }

    /// The order of keys in blocks: of their lengths, which their heads tell, and of their bytes.
    #[inline]
    fn order(&self, other: &Entry, block: &[u8]) -> Ordering {
        self.front.cmp(&other.front).then_with(|| {
            let (one, other) = (self.key(block), other.key(block));
            one.len().cmp(&other.len()).then_with(|| one.cmp(other))
        })
    }
}

/// The entries by the first bytes of their keys, which tell their lengths, and those of one as they
/// came: in the order of blocks, where texts came in theirs.
fn by_head(entries: &[Entry]) -> impl Iterator<Item = &Entry> {
    let head = |it: &Entry| (it.front >> 56) as u8 % 32;
    let heads = entries
        .iter()
        .fold(0_u32, |heads, it| heads | 1 << head(it));
    let heads = (0..32).filter(move |it| heads >> it & 1 == 1);
    heads.flat_map(move |one| entries.iter().filter(move |it| head(it) == one))
}

/// Puts them after the block once more, up to one whose key does not come after the one before it.
fn put_again<'a>(
    block: &mut Vec<u8>,
    mut entries: impl Iterator<Item = &'a Entry>,
) -> Result<(), &'a Entry> {
    let (mut last, mut run) = (None::<&Entry>, 0..0); // of entries that stay one after the other
    entries.try_for_each(|it| {
        if last.map_or(false, |last| last.order(it, block).is_ge()) {
            return Err(it);
        }
        if it.start != run.end {
            block.extend_from_within(run.clone());
            run.start = it.start;
        }
        run.end = it.end;
        last = Some(it);
        Ok(())
    })?;
    block.extend_from_within(run);
    Ok(())
}

/// Returns true if each key comes after the one before it.
#[inline]
fn are_in_order(entries: &[Entry], block: &[u8]) -> bool {
    entries
        .windows(2)
        .all(|it| it[0].order(&it[1], block).is_lt())
}

/// What is written so far.
#[derive(Debug)]
struct Writer {
    block: Vec<u8>,
    level: usize,
    payload: usize,      // where the last one begins
    entries: Vec<Entry>, // of the maps that are being written
    is_broken: bool,     // within a part that was refused
}

impl Default for Writer {
    fn default() -> Writer {
        Writer {
            block: Vec::with_capacity(ROOM),
            level: 0,
            payload: 0,
            entries: Vec::with_capacity(ROOM_OF_ENTRIES),
            is_broken: false,
        }
    }
}

impl Writer {
    /// The block, exactly if it is one.
    fn judged(&self) -> Result<&[u8], Error> {
        check(&self.block).map_err(|it| it.refusal)?;
        Ok(&self.block)
    }

    /// Lets go of what is written, as far as it came.
    #[cfg(feature = "std")]
    fn clear(&mut self) {
        self.block.clear();
        self.entries.clear();
        (self.level, self.is_broken) = (0, false);
    }

    #[inline]
    fn put(&mut self, major: u8, n: u64) -> Result<(), Error> {
        put_head(&mut self.block, major, n);
        Ok(())
    }

    #[inline]
    fn put_payload(&mut self, major: u8, payload: &[u8]) -> Result<(), Error> {
        match payload.len() {
            n @ 0..=SHORT => self.block.push(32 * major + n as u8),
            n @ 24..=0xff => self.block.extend_from_slice(&[32 * major + 24, n as u8]),
            n => put_long_head(&mut self.block, major, n as u64),
        }
        self.payload = self.block.len();
        self.block.extend_from_slice(payload);
        Ok(())
    }

    /// The last text that was put.
    fn text(&self) -> String {
        String::from_utf8_lossy(&self.block[self.payload..]).into_owned()
    }

    /// Puts the value, which is bytes or a text, as the link that it is.
    fn put_link<T: Serialize + ?Sized>(&mut self, value: &T) -> Result<(), Error> {
        let at = self.block.len();
        value.serialize(&mut *self)?;
        let cid = match self.block[at] / 32 {
            BYTES => Cid::hold(&self.block[self.payload..]).ok_or(Refusal::Msg)?,
            TEXT => self.text().parse()?,
            _ => return Err(Refusal::Msg.into()),
        };
        self.block.truncate(at);
        self.block.extend_from_slice(&[0xd8, 0x2a]);
        self.put(BYTES, 1 + cid.as_bytes().len() as u64)?;
        self.block.push(0);
        self.block.extend_from_slice(cid.as_bytes());
        Ok(())
    }

    /// Checks that a part may follow, in the lists and maps that are begun.
    #[inline]
    fn check_level(&self) -> Result<(), Error> {
        if self.level > MOST_LEVELS {
            return Err(Refusal::DepthOverflow.into());
        }
        Ok(())
    }

    /// Begins the map of a variant with data, by its name.
    fn begin_variant(&mut self, name: Name) -> Result<(), Error> {
        self.put(MAP, 1)?;
        self.level += 1;
        self.check_level()?;
        self.put_payload(TEXT, name.as_bytes())
    }

    /// Begins a list or map, of this many parts if that is known, after the name of the variant
    /// that it is of.
    #[inline]
    fn begin(
        &mut self,
        major: u8,
        parts: Option<usize>,
        variant: Option<Name>,
    ) -> Result<Parts<'_>, Error> {
        if let Some(name) = variant {
            self.begin_variant(name)?;
        }
        let (head, told) = (self.block.len(), parts.unwrap_or(0));
        self.put(major, told as u64)?;
        self.level += 1;
        if major == MAP {
            self.entries.reserve(told.min(MOST_ENTRIES));
        }
        Ok(Parts {
            head: head..self.block.len(),
            told,
            count: 0,
            first: self.entries.len(),
            variant,
            writer: self,
            #[cfg(feature = "std")]
            out: None,
        })
    }

    /// Puts the last map's entries, which are those from there on, in the order of their keys.
    #[inline(never)]
    fn sort(&mut self, first: usize) -> Result<(), Error> {
        let (entries, block) = (&mut self.entries[first..], &mut self.block);
        let (end, mut begin) = (block.len(), block.len());
        for it in entries.iter_mut().rev() {
            it.end = begin;
            begin = it.start;
        }
        block.reserve(end - begin);
        if entries.len() <= FEW_ENTRIES || put_again(block, by_head(entries)).is_err() {
            block.truncate(end);
            entries.sort_unstable_by(|one, other| one.order(other, block));
            put_again(block, entries.iter()).map_err(|twice| {
                let key = String::from_utf8_lossy(twice.key(block));
                Error::from(Refusal::UnorderedKey).within(key)
            })?;
        }
        block.copy_within(end.., begin);
        block.truncate(end);
        Ok(())
    }
}

/// A list or map that is written.
pub struct Parts<'a> {
    writer: &'a mut Writer,
    head: Range<usize>,
    told: usize, // the number of parts in the head
    count: usize,
    first: usize, // of its entries
    variant: Option<Name>,
    #[cfg(feature = "std")]
    out: Option<&'a mut dyn Write>, // of a list or map that is a block
}

impl Parts<'_> {
    /// Says where it is, in the data of the variant. A value that goes on after it has no block.
    #[cold]
    fn within_variant(&mut self, error: Error) -> Error {
        self.writer.is_broken = true;
        match self.variant {
            Some(name) => error.within(name),
            None => error,
        }
    }

    #[inline]
    fn put_item<T: Serialize + ?Sized>(&mut self, value: &T) -> Result<(), Error> {
        let level = self.writer.check_level();
        let put = level.and_then(|()| value.serialize(&mut *self.writer));
        put.map_err(|it| self.within_variant(it.within(self.count)))?;
        self.count += 1;
        Ok(())
    }

    #[inline]
    fn put_key<T: Serialize + ?Sized>(&mut self, key: &T) -> Result<(), Error> {
        let start = self.writer.block.len();
        let level = self.writer.check_level();
        let put = level.and_then(|()| key.serialize(&mut *self.writer));
        put.map_err(|it| self.within_variant(it))?;
        if self.writer.block[start] / 32 != TEXT {
            return Err(self.within_variant(Error::custom("Map keys must be strings")));
        }
        let entry = Entry::of_last(&self.writer.block, start);
        self.writer.entries.push(entry);
        self.count += 1;
        Ok(())
    }

    /// Puts the name of a field, which is known where this is inlined.
    #[inline(always)]
    fn put_name(&mut self, name: Name) -> Result<(), Error> {
        if name.len() > SHORT {
            return self.put_key(name);
        }
        let level = self.writer.check_level();
        level.map_err(|it| self.within_variant(it))?;
        let start = self.writer.block.len();
        self.writer.put_payload(TEXT, name.as_bytes())?;
        self.writer.entries.push(Entry {
            front: front_of(name.as_bytes()),
            start,
            end: 0,
        });
        self.count += 1;
        Ok(())
    }

    fn put_value<T: Serialize + ?Sized>(&mut self, value: &T) -> Result<(), Error> {
        let key = self.writer.payload..self.writer.block.len();
        value.serialize(&mut *self.writer).map_err(|it| {
            let key = String::from_utf8_lossy(&self.writer.block[key]);
            self.within_variant(it.within(key))
        })
    }

    fn finish(mut self) -> Result<(), Error> {
        if self.writer.is_broken {
            let said = "the value goes on after a part that was refused";
            return Err(Error::custom(said));
        }
        self.writer.level -= 1 + usize::from(self.variant.is_some());
        if !are_in_order(&self.writer.entries[self.first..], &self.writer.block) {
            let sorted = self.writer.sort(self.first);
            sorted.map_err(|it| self.within_variant(it))?;
        }
        self.writer.entries.truncate(self.first);
        if self.told != self.count {
            let (mut head, major) = (Vec::new(), self.writer.block[self.head.start] / 32);
            put_head(&mut head, major, self.count as u64);
            self.writer.block.splice(self.head, head);
        }
        #[cfg(feature = "std")]
        if let Some(out) = self.out {
            out.write_all(self.writer.judged()?)?;
        }
        Ok(())
    }
}

/// What both serializers are.
macro_rules! of_both {
    () => {
        type Ok = ();
        type Error = Error;
        type SerializeSeq = Parts<'a>;
        type SerializeTuple = Parts<'a>;
        type SerializeTupleStruct = Parts<'a>;
        type SerializeTupleVariant = Parts<'a>;
        type SerializeMap = Parts<'a>;
        type SerializeStruct = Parts<'a>;
        type SerializeStructVariant = Parts<'a>;

        fn serialize_some<T: Serialize + ?Sized>(self, value: &T) -> Result<(), Error> {
            value.serialize(self)
        }

        fn is_human_readable(&self) -> bool {
            false
        }
    };
}

/// The methods that put a value, which has a type of its own if it says so, and those that begin
/// a list or a map: for what is put into a block, and for blocks that are handed over.
macro_rules! serializers {
    (
        values {$(
            $put:ident$(<$T:ident>)?($($name:ident: $type:ty),*) $self:ident => $value:expr;
        )*}
        parts {$(
            $begin:ident($($part:ident: $sort:ty),*) => $major:ident, $count:expr, $variant:expr;
        )*}
    ) => {
        impl<'a> ser::Serializer for &'a mut Writer {
            of_both!();

            $(#[inline]
            fn $put$(<$T: Serialize + ?Sized>)?($self, $($name: $type),*) -> Result<(), Error> {
                $value
            })*

            $(#[inline]
            fn $begin(self, $($part: $sort),*) -> Result<Parts<'a>, Error> {
                self.begin($major, $count, $variant)
            })*
        }

        #[cfg(feature = "std")]
        impl<'a, W: Write> ser::Serializer for &'a mut Serializer<W> {
            of_both!();

            $(fn $put$(<$T: Serialize + ?Sized>)?(self, $($name: $type),*) -> Result<(), Error> {
                self.put(|it| it.$put($($name),*))
            })*

            $(fn $begin(self, $($part: $sort),*) -> Result<Parts<'a>, Error> {
                self.begin(|it| it.$begin($($part),*))
            })*
        }
    };
}

serializers! {
    values {
        serialize_bool(value: bool) self => self.put(SIMPLE, FALSE + u64::from(value));
        serialize_u8(n: u8) self => self.put(INTEGER, n.into());
        serialize_u16(n: u16) self => self.put(INTEGER, n.into());
        serialize_u32(n: u32) self => self.put(INTEGER, n.into());
        serialize_u64(n: u64) self => self.put(INTEGER, n);
        serialize_u128(n: u128) self => self.serialize_i128(n.try_into().unwrap_or(i128::MAX));
        serialize_i8(n: i8) self => self.serialize_i64(n.into());
        serialize_i16(n: i16) self => self.serialize_i64(n.into());
        serialize_i32(n: i32) self => self.serialize_i64(n.into());
        serialize_i64(n: i64) self => match u64::try_from(n) {
            Ok(n) => self.put(INTEGER, n),
            Err(_) => self.put(NEGATIVE, !n as u64),
        };
        serialize_i128(n: i128) self => match (u64::try_from(n), u64::try_from(!n)) {
            (Ok(n), _) => self.put(INTEGER, n),
            (_, Ok(n)) => self.put(NEGATIVE, n),
            _ => Err(Error::custom("an integer is not in -2^64 .. 2^64 - 1")),
        };
        serialize_f32(_n: f32) self => Err(Error::custom("floats are not written"));
        serialize_f64(_n: f64) self => Err(Error::custom("floats are not written"));
        serialize_char(value: char) self => self.serialize_str(value.encode_utf8(&mut [0; 4]));
        serialize_str(text: &str) self => self.put_payload(TEXT, text.as_bytes());
        serialize_bytes(bytes: &[u8]) self => self.put_payload(BYTES, bytes);
        serialize_none() self => self.put(SIMPLE, NULL);
        serialize_unit() self => self.put(SIMPLE, NULL);
        serialize_unit_struct(_name: Name) self => self.put(SIMPLE, NULL);
        serialize_unit_variant(_name: Name, _at: u32, name: Name) self => self.serialize_str(name);
        serialize_newtype_struct<T>(name: Name, value: &T) self => match name {
            CID_NAME => self.put_link(value),
            _ => value.serialize(self),
        };
        serialize_newtype_variant<T>(_name: Name, _at: u32, variant: Name, value: &T) self => {
            self.begin_variant(variant)?;
            let put = value.serialize(&mut *self);
            self.level -= 1;
            put.map_err(|it| it.within(variant))
        };
    }
    parts {
        serialize_seq(count: Option<usize>) => LIST, count, None;
        serialize_tuple(count: usize) => LIST, Some(count), None;
        serialize_tuple_struct(_name: Name, count: usize) => LIST, Some(count), None;
        serialize_tuple_variant(_name: Name, _at: u32, variant: Name, count: usize)
            => LIST, Some(count), Some(variant);
        serialize_map(count: Option<usize>) => MAP, count, None;
        serialize_struct(_name: Name, count: usize) => MAP, Some(count), None;
        serialize_struct_variant(_name: Name, _at: u32, variant: Name, count: usize)
            => MAP, Some(count), Some(variant);
    }
}

/// What a list or a map is, by each trait that says how its parts come.
macro_rules! of_parts {
    ($($kind:ident $($method:ident($($name:ident: $type:ty)?) => $put:ident),*;)*) => {$(
        impl ser::$kind for Parts<'_> {
            type Ok = ();
            type Error = Error;

            $(#[inline(always)]
            fn $method<T: Serialize + ?Sized>(
                &mut self,
                $($name: $type,)?
                value: &T,
            ) -> Result<(), Error> {
                $(self.put_name($name)?;)?
                self.$put(value)
            })*

            fn end(self) -> Result<(), Error> {
                self.finish()
            }
        }
    )*};
}

of_parts! {
    SerializeSeq serialize_element() => put_item;
    SerializeTuple serialize_element() => put_item;
    SerializeTupleStruct serialize_field() => put_item;
    SerializeTupleVariant serialize_field() => put_item;
    SerializeStruct serialize_field(name: Name) => put_value;
    SerializeStructVariant serialize_field(name: Name) => put_value;
    SerializeMap serialize_key() => put_key, serialize_value() => put_value;
}
