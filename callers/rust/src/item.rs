use crate::answer::KINDS;
use crate::{Cid, Kind};
use core::{slice, str};

/// A head of a block, as the library tells it: `include/dagcbor.h` says what the numbers are.
#[repr(C)]
#[derive(Clone, Copy, Debug, Default, PartialEq, Eq, Hash)]
pub struct Token {
    /// what the token is
    pub kind: u64,
    /// its number, or how many bytes or items follow
    pub number: u64,
    /// where its payload stands
    pub place: u64,
}

/// The kind of a token for an integer below 0, beside the kinds of items.
#[cfg(feature = "alloc")]
const NEGATIVE: u64 = 8;

/// An item of a block, which lends its payload. What is in a list or a map follows it.
#[derive(Clone, Copy, Debug, PartialEq, Eq, Hash)]
pub enum Item<'a> {
    /// null
    Null,
    /// false or true
    Bool(bool),
    /// an integer from 0 on
    Integer(u64),
    /// the integer -1 - n, by its n
    Negative(u64),
    /// a text
    Text(&'a str),
    /// a byte string
    Bytes(&'a [u8]),
    /// a list of this many items, which follow
    List(u64),
    /// a map of this many entries: for each, its key, a text, and its value follow
    Map(u64),
    /// a link
    Link(Cid),
}

impl<'a> Item<'a> {
    /// The kind and the number of its token, and its payload.
    #[cfg(feature = "alloc")]
    pub(crate) fn parts(&self) -> (u64, u64, &[u8]) {
        fn with(kind: Kind, payload: &[u8]) -> (u64, u64, &[u8]) {
            (kind as u64, payload.len() as u64, payload)
        }
        match self {
            Item::Null => (Kind::Null as u64, 0, &[]),
            Item::Bool(value) => (Kind::Bool as u64, u64::from(*value), &[]),
            Item::Integer(n) => (Kind::Integer as u64, *n, &[]),
            Item::Negative(n) => (NEGATIVE, *n, &[]),
            Item::Text(text) => with(Kind::String, text.as_bytes()),
            Item::Bytes(bytes) => with(Kind::Bytes, bytes),
            Item::List(count) => (Kind::List as u64, *count, &[]),
            Item::Map(count) => (Kind::Map as u64, *count, &[]),
            Item::Link(cid) => with(Kind::Link, cid.as_bytes()),
        }
    }

    /// The item of a token of the block.
    fn of(block: &'a [u8], token: &Token) -> Item<'a> {
        let number = token.number;
        let payload = || &block[token.place as usize..][..number as usize];
        match KINDS.get(token.kind as usize) {
            Some(Kind::Null) => Item::Null,
            Some(Kind::Bool) => Item::Bool(number == 1),
            Some(Kind::Integer) => Item::Integer(number),
            Some(Kind::String) => Item::Text(str::from_utf8(payload()).unwrap_or_default()),
            Some(Kind::Bytes) => Item::Bytes(payload()),
            Some(Kind::List) => Item::List(number),
            Some(Kind::Map) => Item::Map(number),
            Some(Kind::Link) => Item::Link(Cid::held(payload())),
            None => Item::Negative(number),
        }
    }
}

/// The items of a block, in its order.
#[derive(Clone, Debug)]
pub struct Items<'a, 't> {
    block: &'a [u8],
    tokens: slice::Iter<'t, Token>,
}

impl<'a, 't> Items<'a, 't> {
    /// The tokens are those of the block.
    pub(crate) fn new(block: &'a [u8], tokens: &'t [Token]) -> Self {
        Items {
            block,
            tokens: tokens.iter(),
        }
    }

    /// The tokens that are left.
    pub fn tokens(&self) -> &'t [Token] {
        self.tokens.as_slice()
    }
}

impl<'a> Iterator for Items<'a, '_> {
    type Item = Item<'a>;

    fn next(&mut self) -> Option<Item<'a>> {
        self.tokens.next().map(|it| Item::of(self.block, it))
    }

    fn size_hint(&self) -> (usize, Option<usize>) {
        self.tokens.size_hint()
    }
}

impl ExactSizeIterator for Items<'_, '_> {}

/// The links of an item, in its order.
#[derive(Clone, Debug)]
pub struct Cids<'a>(pub(crate) &'a [u8]);

impl Iterator for Cids<'_> {
    type Item = Cid;

    fn next(&mut self) -> Option<Cid> {
        let (length, rest) = self.0.split_first()?;
        let (cid, rest) = rest.split_at(usize::from(*length));
        self.0 = rest;
        Some(Cid::held(cid))
    }
}
