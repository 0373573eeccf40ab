use crate::answer::{answer_of, NO_ROOM};
use crate::calls::{dagcbor_cid_from_text, dagcbor_cid_text};
use crate::{Refusal, MOST_OF_CID};
use core::{fmt, str};

/// The greatest length of the text of a CID, as it is written.
const MOST_OF_TEXT: usize = 139;

/// A CID: the name of a block. It compares as its bytes.
///
/// ```
/// use dagcbor::{name, Cid};
///
/// let cid = name(b"\xf6");
/// assert_eq!((cid.version(), cid.codec(), cid.hash_code()), (1, 0x71, 0x12));
/// assert_eq!(cid.to_string().parse(), Ok(cid));
/// assert_eq!(Cid::new_v1(0x71, 0x12, cid.digest()), Ok(cid));
/// ```
#[derive(Clone, Copy, PartialEq, Eq, PartialOrd, Ord, Hash)]
pub struct Cid {
    bytes: [u8; MOST_OF_CID], // with zeros after it, so that the order is that of its bytes
    length: u8,
}

impl Cid {
    /// The bytes are a CID.
    pub(crate) fn held(bytes: &[u8]) -> Cid {
        Cid::hold(bytes).expect("a CID has at most 86 bytes")
    }

    /// Bytes that may be a CID, which nothing checks: `None` if there are too many.
    pub(crate) fn hold(held: &[u8]) -> Option<Cid> {
        let (mut bytes, length) = ([0; MOST_OF_CID], held.len() as u8);
        bytes.get_mut(..held.len())?.copy_from_slice(held);
        Some(Cid { bytes, length })
    }

    /// Makes a CID of version 1, from a codec, and a digest of at most 64 bytes by a hash function.
    pub fn new_v1(codec: u64, hash_code: u64, digest: &[u8]) -> Result<Cid, Refusal> {
        let mut room = [0; 4 * 10 + 64];
        let mut length = 0;
        for number in [1, codec, hash_code, digest.len() as u64] {
            length += put_varint(number, &mut room[length..]);
        }
        let end = length + digest.len();
        let place = room.get_mut(length..end).ok_or(Refusal::InvalidCid)?;
        place.copy_from_slice(digest);
        Cid::try_from(&room[..end])
    }

    /// The binary form.
    pub fn as_bytes(&self) -> &[u8] {
        &self.bytes[..usize::from(self.length)]
    }

    /// The binary form.
    #[cfg(feature = "alloc")]
    pub fn to_bytes(&self) -> alloc::vec::Vec<u8> {
        self.as_bytes().to_vec()
    }

    /// 0 or 1
    pub fn version(&self) -> u64 {
        self.parts().0[0]
    }

    /// The codec of the block: 0x71 is DAG-CBOR, 0x70 DAG-PB, 0x55 raw bytes.
    pub fn codec(&self) -> u64 {
        self.parts().0[1]
    }

    /// The hash function: 0x12 is SHA-256, 0 the identity.
    pub fn hash_code(&self) -> u64 {
        self.parts().0[2]
    }

    /// The digest, without its length.
    pub fn digest(&self) -> &[u8] {
        self.parts().1
    }

    /// The three numbers above, and the digest. Version 0 is a bare SHA-256 of DAG-PB.
    fn parts(&self) -> ([u64; 3], &[u8]) {
        let mut rest = self.as_bytes();
        if rest[0] == 0x12 {
            return ([0, 0x70, 0x12], &rest[2..]);
        }
        let [version, codec, hash_code, _] = [(); 4].map(|_| take_varint(&mut rest));
        ([version, codec, hash_code], rest)
    }
}

/// Puts the number at the front of the room, and returns how many bytes it takes.
pub(crate) fn put_varint(mut number: u64, room: &mut [u8]) -> usize {
    let mut count = 0;
    while number >= 128 {
        room[count] = (number % 128) as u8 + 128;
        number /= 128;
        count += 1;
    }
    room[count] = number as u8;
    count + 1
}

fn take_varint(rest: &mut &[u8]) -> u64 {
    let (mut number, mut shift) = (0, 0);
    loop {
        let byte = rest[0];
        *rest = &rest[1..];
        number |= u64::from(byte % 128) << shift;
        shift += 7;
        if byte < 128 {
            return number;
        }
    }
}

impl TryFrom<&[u8]> for Cid {
    type Error = Refusal;

    /// The bytes are a CID if they have a text, for which there is no room.
    fn try_from(bytes: &[u8]) -> Result<Cid, Refusal> {
        match dagcbor_cid_text(bytes, &mut [], &mut 0) {
            NO_ROOM => Ok(Cid::held(bytes)),
            _ => Err(Refusal::InvalidCid),
        }
    }
}

/// `Qm..` for version 0, and `b`, `B`, `z` or `f` first for version 1.
impl str::FromStr for Cid {
    type Err = Refusal;

    fn from_str(text: &str) -> Result<Cid, Refusal> {
        let (mut room, mut needed) = ([0; MOST_OF_CID], 0);
        let code = dagcbor_cid_from_text(text.as_bytes(), &mut room, &mut needed);
        answer_of(code, needed)?;
        Ok(Cid::held(&room[..needed]))
    }
}

impl TryFrom<&str> for Cid {
    type Error = Refusal;

    fn try_from(text: &str) -> Result<Cid, Refusal> {
        text.parse()
    }
}

/// The text: `Qm..` for version 0, and base32 after `b` for version 1.
impl fmt::Display for Cid {
    fn fmt(&self, f: &mut fmt::Formatter<'_>) -> fmt::Result {
        let (mut room, mut needed) = ([0; MOST_OF_TEXT], 0);
        dagcbor_cid_text(self.as_bytes(), &mut room, &mut needed);
        f.pad(str::from_utf8(&room[..needed]).map_err(|_| fmt::Error)?)
    }
}

impl fmt::Debug for Cid {
    fn fmt(&self, f: &mut fmt::Formatter<'_>) -> fmt::Result {
        write!(f, "Cid({self})")
    }
}

impl AsRef<[u8]> for Cid {
    fn as_ref(&self) -> &[u8] {
        self.as_bytes()
    }
}
