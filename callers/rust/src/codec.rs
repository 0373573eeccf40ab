//! DAG-CBOR as a codec, by the traits that `ipld-core` has.

use crate::{from_reader, from_slice, links, to_vec, to_writer, Cid, Error, Refusal};
use alloc::vec::{IntoIter, Vec};
use serde::{de::DeserializeOwned, Serialize};
use std::io::{BufRead, Write};

/// Finds links in encoded data.
pub trait Links {
    /// Why there are none.
    type LinksError;

    /// The links of the first item, in its order, with repeats.
    fn links(bytes: &[u8]) -> Result<IntoIter<Cid>, Self::LinksError>;
}

/// Encodes and decodes values of a type.
pub trait Codec<T>: Links {
    /// The number of the codec in a CID.
    const CODE: u64;

    /// Why a value is not encoded, or data is not decoded.
    type Error;

    /// Returns the value of what a reader gives, up to its end.
    fn decode<R: BufRead>(reader: R) -> Result<T, Self::Error>;

    /// The value of the bytes.
    fn decode_from_slice(bytes: &[u8]) -> Result<T, Self::Error>;

    /// Writes the encoded value.
    fn encode<W: Write>(writer: W, value: &T) -> Result<(), Self::Error>;

    /// The encoded value.
    fn encode_to_vec(value: &T) -> Result<Vec<u8>, Self::Error>;
}

/// DAG-CBOR.
///
/// ```
/// use dagcbor::codec::{Codec, DagCborCodec, Links};
/// use dagcbor::{ipld, name, Ipld};
///
/// let data = ipld!([name(b"\xf6")]);
/// let block = DagCborCodec::encode_to_vec(&data)?;
/// assert!(DagCborCodec::links(&block)?.eq([name(b"\xf6")]));
/// assert_eq!(<DagCborCodec as Codec<Ipld>>::decode_from_slice(&block)?, data);
/// assert_eq!(<DagCborCodec as Codec<Ipld>>::CODE, name(&block).codec());
/// # Ok::<(), dagcbor::Error>(())
/// ```
#[derive(Clone, Copy, Debug, PartialEq, Eq)]
pub struct DagCborCodec;

impl Links for DagCborCodec {
    type LinksError = Refusal;

    fn links(bytes: &[u8]) -> Result<IntoIter<Cid>, Refusal> {
        Ok(links(bytes)?.iter().collect::<Vec<_>>().into_iter())
    }
}

impl<T: Serialize + DeserializeOwned> Codec<T> for DagCborCodec {
    const CODE: u64 = 0x71;

    type Error = Error;

    fn decode<R: BufRead>(reader: R) -> Result<T, Error> {
        from_reader(reader)
    }

    fn decode_from_slice(bytes: &[u8]) -> Result<T, Error> {
        from_slice(bytes)
    }

    fn encode<W: Write>(writer: W, value: &T) -> Result<(), Error> {
        to_writer(writer, value)
    }

    fn encode_to_vec(value: &T) -> Result<Vec<u8>, Error> {
        to_vec(value)
    }
}
