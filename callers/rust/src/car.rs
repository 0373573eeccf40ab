use crate::answer::answer_of;
use crate::calls::{dagcbor_car_next, dagcbor_verify, links_into};
#[cfg(feature = "alloc")]
use crate::calls::{links, Links};
use crate::item::Cids;
use crate::{CarRefusal, CarRefused, Cid, Kind, Refusal};
use core::ops::Range;

/// The verdict on the block of a section.
#[derive(Clone, Copy, Debug, PartialEq, Eq, Hash)]
pub enum Verdict {
    /// the block has this name, and is of this kind
    Ok(Kind),
    /// the bytes have this name, of DAG-CBOR, and are not a block of it
    Refused(Refusal),
    /// the digest is not that of the CID
    OtherBytes,
    /// the bytes have this name, and are of another codec than DAG-CBOR
    NotRead,
    /// the CID is by another hash function than SHA-256 and the identity
    NotVerified,
}

impl Verdict {
    /// Returns true if the bytes are those that the CID names.
    pub const fn is_verified(self) -> bool {
        !matches!(self, Verdict::OtherBytes | Verdict::NotVerified)
    }
}

/// A section of a CAR file: a name, and the bytes that stand after it.
#[derive(Clone, Copy, Debug, PartialEq, Eq)]
pub struct Section<B> {
    /// the name
    pub cid: Cid,
    /// the bytes
    pub block: B,
    /// the verdict on them
    pub verdict: Verdict,
}

impl<B> Section<B> {
    pub(crate) fn map<C>(self, map: impl FnOnce(B) -> C) -> Section<C> {
        Section {
            cid: self.cid,
            block: map(self.block),
            verdict: self.verdict,
        }
    }
}

/// What a number of the library says of the block under a name.
fn verdict_of(code: i32) -> Verdict {
    match code {
        9 => Verdict::NotRead,
        -22 => Verdict::OtherBytes,
        -23 => Verdict::NotVerified,
        _ => answer_of(code, 0).map_or_else(Verdict::Refused, Verdict::Ok),
    }
}

/// A walk through a file, as the library keeps it: zeros at the beginning.
#[repr(C)]
#[derive(Clone, Debug, Default)]
pub(crate) struct Walk {
    pub(crate) place: u64,
    end: u64,
    version: u32,
    step: u32, // 0 before the header
}

/// What a walk comes to. Places are counted from the bytes that it gets.
pub(crate) enum Part {
    /// more bytes are needed, from the place of the walk on
    More,
    /// the block of the header, which comes first
    Header(Range<usize>),
    /// a section, by the place of its block
    Section(Section<Range<usize>>),
    /// the end of the file
    End,
}

impl Part {
    pub(crate) fn header(self) -> Range<usize> {
        match self {
            Part::Header(block) => block,
            _ => unreachable!("a file begins with its header"),
        }
    }
}

impl Walk {
    /// The next part of the file, whose bytes from the place of the walk on these are: the last
    /// ones, or others may follow.
    pub(crate) fn next(&mut self, bytes: &[u8], are_last: bool) -> Result<Part, CarRefused> {
        let mut places = [0; 3];
        let code = dagcbor_car_next(self, bytes, u32::from(are_last), &mut places);
        let [begin, block, end] = places;
        match (code, CarRefusal::of_code(code), self.step) {
            (10, ..) => Ok(Part::More),
            (11, ..) => Ok(Part::Header(block..end)),
            (12, ..) => Ok(Part::End),
            (_, Some(refusal), _) => Err(refusal.at(self.place)),
            (_, None, 0) => {
                let refusal = answer_of(code, 0).expect_err("it is no header");
                Err(CarRefusal::NoBlock(refusal).at(self.place))
            }
            _ => Ok(Part::Section(Section {
                cid: Cid::held(&bytes[begin..block]),
                block: block..end,
                verdict: verdict_of(code),
            })),
        }
    }
}

/// Returns the verdict on a block under a name, as on a section of a CAR file.
///
/// ```
/// use dagcbor::{name, verify, Kind, Verdict};
///
/// assert_eq!(verify(&name(b"\x05"), b"\x05"), Verdict::Ok(Kind::Integer));
/// assert_eq!(verify(&name(b"\x05"), b"\x06"), Verdict::OtherBytes);
/// ```
pub fn verify(cid: &Cid, block: &[u8]) -> Verdict {
    verdict_of(dagcbor_verify(cid.as_bytes(), block))
}

/// The sections of a CAR file (version 1 or 2) in memory, one after the other. A
/// refusal comes once, and nothing after it.
///
/// ```
/// use dagcbor::{name, Car, CarRefusal, Kind, Verdict};
///
/// let mut file = b"\x11\xa2\x65roots\x80\x67version\x01".to_vec(); // no root
/// file.push(37);
/// file.extend(name(b"\x05").as_bytes());
/// file.push(5);
/// for section in Car::new(&file)? {
///     assert_eq!(section?.verdict, Verdict::Ok(Kind::Integer));
/// }
///
/// let cut = Car::new(&file[..50])?.last().unwrap().unwrap_err();
/// assert_eq!((cut.refusal, cut.place), (CarRefusal::Truncated, 18));
/// # Ok::<(), dagcbor::CarRefused>(())
/// ```
#[derive(Clone, Debug)]
pub struct Car<'a> {
    file: &'a [u8],
    header: &'a [u8],
    walk: Walk,
    is_over: bool,
}

impl<'a> Car<'a> {
    /// The file, after its header.
    pub fn new(file: &'a [u8]) -> Result<Car<'a>, CarRefused> {
        let (header, walk, is_over) = (file, Walk::default(), false);
        let mut car = Car {
            file,
            header,
            walk,
            is_over,
        };
        let (rest, first) = car.next_part()?;
        car.header = &rest[first.header()];
        Ok(car)
    }

    /// The next part, and the bytes from which its places are counted.
    fn next_part(&mut self) -> Result<(&'a [u8], Part), CarRefused> {
        let rest = &self.file[self.walk.place as usize..];
        Ok((rest, self.walk.next(rest, true)?))
    }

    /// The roots, which are put into the room: each with a byte before it. Room for as many bytes as
    /// the header has is enough.
    pub fn roots_into<'r>(&self, room: &'r mut [u8]) -> Result<Cids<'r>, Refusal> {
        links_into(self.header, room)
    }

    /// The roots.
    #[cfg(feature = "alloc")]
    pub fn roots(&self) -> Links {
        links(self.header).expect("a header is a block")
    }

    /// The offset in the file of the next section.
    pub fn place(&self) -> u64 {
        self.walk.place
    }
}

impl<'a> Iterator for Car<'a> {
    type Item = Result<Section<&'a [u8]>, CarRefused>;

    fn next(&mut self) -> Option<Self::Item> {
        if self.is_over {
            return None;
        }
        match self.next_part() {
            Ok((rest, Part::Section(it))) => Some(Ok(it.map(|block| &rest[block]))),
            Ok(_) => None,
            Err(refused) => {
                self.is_over = true;
                Some(Err(refused))
            }
        }
    }
}
