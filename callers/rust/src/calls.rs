//! The calls of the library, and what they give as values of Rust.

use crate::answer::answer_of;
use crate::car::Walk;
use crate::item::{Cids, Items, Token};
use crate::{Cid, Kind, Refusal, Refused};
use core::ops::Range;
#[cfg(feature = "alloc")]
use {crate::Item, alloc::vec, alloc::vec::Vec};

/// Declares functions of the library, and a call of each, which takes a walk if it is one of a
/// walk, slices to read, at most one slice as room, at most one number, and places of numbers.
/// `include/dagcbor.h` says what each returns.
macro_rules! calls {
    ($($name:ident($(&$walk:ident,)? $($bytes:ident: $item:ty),*;
        $($room:ident: $entry:ty)? $(= $how:ident)?; $($put:ident: $number:ty),*)
        $(-> $answer:ty)?;)*) => {
        mod library {
            use super::*;

            extern "C" {$(
                pub fn $name(
                    $($walk: *mut Walk,)?
                    $($bytes: *const $item, _: usize,)*
                    $($room: *mut $entry, _: usize,)?
                    $($how: u32,)?
                    $($put: *mut $number,)*
                ) $(-> $answer)?;
            )*}
        }

        $(
            #[allow(unsafe_code)]
            pub(crate) fn $name(
                $($walk: &mut Walk,)?
                $($bytes: &[$item],)*
                $($room: &mut [$entry],)?
                $($how: u32,)?
                $($put: &mut $number,)*
            ) $(-> $answer)? {
                // SAFETY: what goes in are slices and references. So pointers are not null, also
                // those of empty slices, and aligned; as many elements stand there; nobody writes
                // shared ones, nobody else uses a unique one, and no two of these overlap. A slice
                // has fewer than 2^63 bytes, and tokens are fewer than 2^58: an address has no
                // more than 57 bits, and a token 24 bytes.
                unsafe {
                    library::$name(
                        $($walk,)?
                        $($bytes.as_ptr(), $bytes.len(),)*
                        $($room.as_mut_ptr(), $room.len(),)?
                        $($how,)?
                        $($put,)*
                    )
                }
            }
        )*
    };
}

calls! {
    dagcbor_check(block: u8;;) -> i32;
    dagcbor_tape(block: u8; tape: Token; needed: usize) -> i32;
    dagcbor_tokens(block: u8; tape: Token; needed: usize, place: usize) -> i32;
    dagcbor_spell(bytes: u8, tape: Token; out: u8; needed: usize) -> i32;
    dagcbor_links(block: u8; out: u8; needed: usize) -> i32;
    dagcbor_part(block: u8, segment: u8;; place: usize, end: usize) -> i32;
    dagcbor_follow(block: u8, path: u8;; places: [usize; 3]) -> i32;
    dagcbor_node_links(node: u8; out: u8; needed: usize, place: usize) -> i32;
    dagcbor_from_node(node: u8; out: u8; needed: usize, place: usize) -> i32;
    dagcbor_to_node(block: u8; out: u8; needed: usize) -> i32;
    dagcbor_name(block: u8;; out: [u8; 36]);
    dagcbor_verify(cid: u8, block: u8;;) -> i32;
    dagcbor_car_next(&walk, bytes: u8; = how; places: [usize; 3]) -> i32;
    dagcbor_cid_text(cid: u8; out: u8; needed: usize) -> i32;
    dagcbor_cid_from_text(text: u8; out: u8; needed: usize) -> i32;
}

/// The greatest length of the binary form of a CID.
pub const MOST_OF_CID: usize = 86;

/// The number that says that a path leads nowhere.
const NO_SUCH_PATH: i32 = -36;

/// The room, in tokens, that is taken before they are counted: for a block, and for the first of
/// many items.
#[cfg(feature = "alloc")]
const FEW_TOKENS: usize = 1 << 16;
#[cfg(feature = "alloc")]
const FEW_OF_FIRST: usize = 1 << 8;

/// Returns the kind of a block, exactly if the bytes are one.
pub fn check(block: &[u8]) -> Result<Kind, Refused> {
    answer_in(block, dagcbor_check(block))
}

/// What the number says of the block, and where.
pub(crate) fn answer_in(block: &[u8], code: i32) -> Result<Kind, Refused> {
    answer_of(code, 0).map_err(|refusal| refusal.at(first_fault(block).1))
}

/// Why the bytes are not a block, and where.
#[cold]
fn first_fault(block: &[u8]) -> (Result<Kind, Refusal>, usize) {
    let (mut needed, mut place) = (0, 0);
    let code = dagcbor_tokens(block, &mut [], &mut needed, &mut place);
    (answer_of(code, needed), place)
}

/// The first item, and the bytes that follow it.
#[cfg(feature = "serde")]
pub(crate) fn split_item(bytes: &[u8]) -> Result<(&[u8], &[u8]), Refused> {
    match first_fault(bytes) {
        (Ok(_) | Err(Refusal::TrailingData), end) => Ok(bytes.split_at(end)),
        (Err(refusal), place) => Err(refusal.at(place)),
    }
}

/// The block's name, a CID: version 1, DAG-CBOR, by the SHA-256 of the bytes. Any bytes have one.
pub fn name(block: &[u8]) -> Cid {
    let mut out = [0; 36];
    dagcbor_name(block, &mut out);
    Cid::held(&out)
}

/// The kind of the part of the block's item to which the segment leads, taken whole, and where it
/// stands; `None` if it leads nowhere.
pub(crate) fn part_at(
    block: &[u8],
    segment: &str,
) -> Result<Option<(Kind, Range<usize>)>, Refused> {
    let (mut place, mut end) = (0, 0);
    match dagcbor_part(block, segment.as_bytes(), &mut place, &mut end) {
        NO_SUCH_PATH => Ok(None),
        code => Ok(Some((answer_in(block, code)?, place..end))),
    }
}

/// What was put into the room, if it has place for everything.
fn in_room<T>(code: i32, room: &[T], needed: usize) -> Result<&[T], Refusal> {
    answer_of(code, needed)?;
    room.get(..needed).ok_or(Refusal::NoRoom { needed })
}

/// The items of a block, whose tokens are put into the room. Room for as many tokens as the block has
/// bytes is enough.
pub fn tape_into<'a, 't>(block: &'a [u8], room: &'t mut [Token]) -> Result<Items<'a, 't>, Refusal> {
    let mut needed = 0;
    let code = dagcbor_tape(block, room, &mut needed);
    Ok(Items::new(block, in_room(code, room, needed)?))
}

/// The links of the first item, which are put into the room: each with a byte before it. What follows
/// the item is not looked at.
pub fn links_into<'a>(block: &[u8], room: &'a mut [u8]) -> Result<Cids<'a>, Refusal> {
    let mut needed = 0;
    let code = dagcbor_links(block, room, &mut needed);
    Ok(Cids(in_room(code, room, needed)?))
}

/// Spells what the tokens tell, with their payloads from the bytes, puts it into the room and judges
/// it: the block.
pub fn spell_into<'a>(
    bytes: &[u8],
    tape: &[Token],
    room: &'a mut [u8],
) -> Result<&'a [u8], Refusal> {
    let mut needed = 0;
    let code = dagcbor_spell(bytes, tape, room, &mut needed);
    in_room(code, room, needed)
}

/// A block's tokens.
#[cfg(feature = "alloc")]
#[derive(Clone, Debug)]
pub struct Tape<'a> {
    block: &'a [u8],
    tokens: Vec<Token>,
}

#[cfg(feature = "alloc")]
impl<'a> Tape<'a> {
    /// The items, with what the block lends.
    pub fn items(&self) -> Items<'a, '_> {
        Items::new(self.block, &self.tokens)
    }
}

/// The tokens of a block.
#[cfg(feature = "alloc")]
pub fn tape(block: &[u8]) -> Result<Tape<'_>, Refused> {
    match tokens_of(block, FEW_TOKENS) {
        (Ok(_), tape, _) => Ok(tape),
        (Err(refusal), _, place) => Err(refusal.at(place)),
    }
}

/// The tokens of the first item, and the bytes that follow it.
///
/// ```
/// let (first, rest) = dagcbor::take_tape(b"\xf6\x17").unwrap();
/// assert_eq!((first.items().len(), rest), (1, &b"\x17"[..]));
/// ```
#[cfg(feature = "alloc")]
pub fn take_tape(bytes: &[u8]) -> Result<(Tape<'_>, &[u8]), Refused> {
    match tokens_of(bytes, FEW_OF_FIRST) {
        (Ok(_) | Err(Refusal::TrailingData), tape, end) => Ok((tape, &bytes[end..])),
        (Err(refusal), _, place) => Err(refusal.at(place)),
    }
}

/// The verdict on the bytes, and its place; and the tokens before that place.
#[cfg(feature = "alloc")]
fn tokens_of(block: &[u8], few: usize) -> (Result<Kind, Refusal>, Tape<'_>, usize) {
    let mut place = 0;
    let (tokens, code) = filled(block.len().min(few), |tape, needed| {
        dagcbor_tokens(block, tape, needed, &mut place)
    });
    (answer_of(code, 0), Tape { block, tokens }, place)
}

/// What a call puts into room, which has this size at first, and the call's number.
#[cfg(feature = "alloc")]
pub(crate) fn filled<T: Clone + Default>(
    first: usize,
    mut call: impl FnMut(&mut [T], &mut usize) -> i32,
) -> (Vec<T>, i32) {
    let (mut room, mut needed) = (vec![T::default(); first], 0);
    loop {
        let code = call(&mut room, &mut needed);
        let is_whole = needed <= room.len();
        room.resize(needed, T::default());
        if is_whole {
            return (room, code);
        }
    }
}

/// The links of an item.
#[cfg(feature = "alloc")]
#[derive(Clone, Debug)]
pub struct Links(pub(crate) Vec<u8>);

#[cfg(feature = "alloc")]
impl Links {
    /// Each link, with repeats.
    pub fn iter(&self) -> Cids<'_> {
        Cids(&self.0)
    }
}

#[cfg(feature = "alloc")]
impl<'a> IntoIterator for &'a Links {
    type Item = Cid;
    type IntoIter = Cids<'a>;

    fn into_iter(self) -> Cids<'a> {
        self.iter()
    }
}

/// The links of the first item. What follows it is not looked at.
#[cfg(feature = "alloc")]
pub fn links(block: &[u8]) -> Result<Links, Refusal> {
    let (packed, code) = filled(0, |out, needed| dagcbor_links(block, out, needed));
    answer_of(code, 0)?;
    Ok(Links(packed))
}

/// The block of the items. Keys of maps come in their order: the shorter first, then by their bytes.
#[cfg(feature = "alloc")]
pub fn spell(items: &[Item<'_>]) -> Result<Vec<u8>, Refusal> {
    let (mut payloads, mut tokens) = (Vec::new(), Vec::with_capacity(items.len()));
    for it in items {
        let (kind, number, payload) = it.parts();
        let place = payloads.len() as u64;
        tokens.push(Token {
            kind,
            number,
            place,
        });
        payloads.extend_from_slice(payload);
    }
    // No head has more bytes than nine, and that of a link no more than six.
    let mut block = vec![0; payloads.len() + 9 * tokens.len()];
    let needed = spell_into(&payloads, &tokens, &mut block)?.len();
    block.truncate(needed);
    Ok(block)
}
