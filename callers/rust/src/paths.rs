use crate::calls::{answer_in, dagcbor_follow, part_at};
use crate::{check, Kind, Refused};
#[cfg(feature = "alloc")]
use {
    crate::{links_into, name, verify, Cid, Verdict, MOST_OF_CID},
    alloc::vec::Vec,
    core::fmt,
};

/// A path, or a list of segments, each taken whole.
trait Path: Copy + Default + PartialEq {
    /// The kind and the bytes of the last item to which a front of the path leads, and what is left of
    /// the path.
    fn follow(self, block: &[u8]) -> Result<(Kind, &[u8], Self), Refused>;

    fn is_at_end(self) -> bool {
        self == Self::default()
    }
}

impl Path for &str {
    fn follow(self, block: &[u8]) -> Result<(Kind, &[u8], Self), Refused> {
        let mut places = [0; 3];
        let code = dagcbor_follow(block, self.as_bytes(), &mut places);
        let kind = answer_in(block, code)?;
        let [begin, end, passed] = places;
        Ok((kind, &block[begin..end], &self[passed..]))
    }
}

impl Path for &[&str] {
    fn follow(self, block: &[u8]) -> Result<(Kind, &[u8], Self), Refused> {
        let (mut kind, mut item, mut left) = (check(block)?, block, self);
        while let [segment, more @ ..] = left {
            match part_at(item, segment)? {
                Some((found, place)) => (kind, item, left) = (found, &item[place], more),
                None => break,
            }
        }
        Ok((kind, item, left))
    }
}

fn find_by(block: &[u8], path: impl Path) -> Result<Option<&[u8]>, Refused> {
    let (_, item, left) = path.follow(block)?;
    Ok(left.is_at_end().then_some(item))
}

/// Returns the bytes of the item to which a path leads in a block, which are a block by themselves;
/// `None` if it leads nowhere. Segments stand between slashes, and empty ones say nothing: each is a
/// key of a map, or the index of an item of a list in decimal. A link is an item, and nothing is in it.
///
/// ```
/// use dagcbor::find;
///
/// let block = b"\xa1\x61a\x82\x01\x17";
/// assert_eq!(find(block, "a/1")?, Some(&b"\x17"[..]));
/// assert_eq!(find(block, "a/2")?, None);
/// # Ok::<(), dagcbor::Refused>(())
/// ```
pub fn find<'b>(block: &'b [u8], path: &str) -> Result<Option<&'b [u8]>, Refused> {
    find_by(block, path)
}

/// As [`find`], for a list of segments, each taken whole: it also reaches keys that are empty or have
/// slashes.
///
/// ```
/// use dagcbor::find_segments;
///
/// let block = b"\xa1\x63a/b\x82\x01\x17";
/// assert_eq!(find_segments(block, &["a/b", "1"])?, Some(&b"\x17"[..]));
/// # Ok::<(), dagcbor::Refused>(())
/// ```
pub fn find_segments<'b>(block: &'b [u8], segments: &[&str]) -> Result<Option<&'b [u8]>, Refused> {
    find_by(block, segments)
}

/// Why a path over links cannot be followed to its end.
#[cfg(feature = "alloc")]
#[derive(Clone, Debug, PartialEq, Eq)]
pub enum Unresolved<E> {
    /// the call that gives blocks failed
    Get(E),
    /// no block is held under the name
    Missing(Cid),
    /// what is held under the name is not its block
    NoBlock(Cid, Verdict),
}

#[cfg(feature = "alloc")]
impl<E: fmt::Display> fmt::Display for Unresolved<E> {
    fn fmt(&self, f: &mut fmt::Formatter<'_>) -> fmt::Result {
        match self {
            Unresolved::Get(error) => write!(f, "{error}"),
            Unresolved::Missing(cid) => write!(f, "no block is held under {cid}"),
            Unresolved::NoBlock(cid, verdict) => write!(f, "no block of {cid}: {verdict:?}"),
        }
    }
}

#[cfg(feature = "std")]
impl<E: std::error::Error> std::error::Error for Unresolved<E> {}

#[cfg(feature = "alloc")]
const IDENTITY: u64 = 0;

/// Returns the bytes of the item to which the path leads from the block of the root, over links;
/// `None` if it leads nowhere. `get` gives the block of a name, or `None`. Each block on the way is
/// verified, so either answer holds for everyone who has blocks of these names. A link at the end is
/// the item.
///
/// ```
/// use dagcbor::{name, resolve, Cid};
/// use std::{collections::BTreeMap, convert::Infallible};
///
/// let leaf = b"\x82\x01\x17".to_vec();
/// let root = [b"\xa1\x61a\xd8\x2a\x58\x25\x00", name(&leaf).as_bytes()].concat();
/// let blocks: BTreeMap<Cid, Vec<u8>> = [leaf, root.clone()].map(|it| (name(&it), it)).into();
/// let get = |cid: &Cid| Ok::<_, Infallible>(blocks.get(cid));
/// assert_eq!(resolve(get, &name(&root), "a/1")?, Some(b"\x17".to_vec()));
/// assert_eq!(resolve(get, &name(&root), "b")?, None);
/// # Ok::<(), dagcbor::Unresolved<Infallible>>(())
/// ```
#[cfg(feature = "alloc")]
pub fn resolve<B: AsRef<[u8]>, E>(
    get: impl FnMut(&Cid) -> Result<Option<B>, E>,
    root: &Cid,
    path: &str,
) -> Result<Option<Vec<u8>>, Unresolved<E>> {
    resolve_by(get, root, path)
}

/// As [`resolve`], for a list of segments, each taken whole.
#[cfg(feature = "alloc")]
pub fn resolve_segments<B: AsRef<[u8]>, E>(
    get: impl FnMut(&Cid) -> Result<Option<B>, E>,
    root: &Cid,
    segments: &[&str],
) -> Result<Option<Vec<u8>>, Unresolved<E>> {
    resolve_by(get, root, segments)
}

#[cfg(feature = "alloc")]
fn resolve_by<B: AsRef<[u8]>, E>(
    mut get: impl FnMut(&Cid) -> Result<Option<B>, E>,
    root: &Cid,
    path: impl Path,
) -> Result<Option<Vec<u8>>, Unresolved<E>> {
    let (mut cid, mut path) = (*root, path);
    loop {
        let held = match cid.hash_code() {
            IDENTITY => None,
            _ => Some(
                get(&cid)
                    .map_err(Unresolved::Get)?
                    .ok_or(Unresolved::Missing(cid))?,
            ),
        };
        let block = held.as_ref().map_or(cid.digest(), AsRef::as_ref);
        let no_block = |verdict| Unresolved::NoBlock(cid, verdict);
        judge_under(&cid, block).map_err(no_block)?;
        let followed = path.follow(block);
        let (kind, item, left) = followed.map_err(|it| no_block(Verdict::Refused(it.refusal)))?;
        match kind {
            _ if left.is_at_end() => return Ok(Some(item.to_vec())),
            Kind::Link => (cid, path) = (link_of(item), left),
            _ => return Ok(None),
        }
    }
}

/// Checks that the bytes are those of the name, and DAG-CBOR.
#[cfg(feature = "alloc")]
fn judge_under(cid: &Cid, block: &[u8]) -> Result<(), Verdict> {
    if name(block) == *cid {
        return Ok(());
    }
    match verify(cid, block) {
        Verdict::Ok(_) => Ok(()),
        verdict => Err(verdict),
    }
}

/// The CID of a link's bytes.
#[cfg(feature = "alloc")]
fn link_of(item: &[u8]) -> Cid {
    let mut room = [0; 1 + MOST_OF_CID];
    let cids = links_into(item, &mut room);
    cids.ok()
        .and_then(|mut it| it.next())
        .expect("a link has a CID")
}
