//! CAR files that are read and written piece by piece.

use crate::calls::Links;
use crate::car::{Part, Walk};
use crate::cid::put_varint;
use crate::item::Cids;
use crate::{links, spell, verify, CarRefused, Cid, Item, Section, Verdict};
use std::error::Error;
use std::fmt;
use std::io::{self, BufRead, BufReader, ErrorKind, Read, Write};

/// The most bytes that are read at once.
const PIECE: usize = 1 << 16;

/// Why the reading or writing of a CAR file stops.
#[derive(Debug)]
#[non_exhaustive]
pub enum CarError {
    /// the reader's error, or the writer's
    Io(io::Error),
    /// the bytes are not a CAR file
    Refused(CarRefused),
    /// the bytes are not those that the CID names; they are not written
    OtherBytes,
}

impl fmt::Display for CarError {
    fn fmt(&self, f: &mut fmt::Formatter<'_>) -> fmt::Result {
        match self {
            CarError::Io(error) => write!(f, "{error}"),
            CarError::Refused(refused) => write!(f, "{refused}"),
            CarError::OtherBytes => f.write_str("the bytes are not those that the CID names"),
        }
    }
}

impl Error for CarError {
    fn source(&self) -> Option<&(dyn Error + 'static)> {
        match self {
            CarError::Io(error) => Some(error),
            CarError::Refused(refused) => Some(refused),
            CarError::OtherBytes => None,
        }
    }
}

impl From<io::Error> for CarError {
    fn from(error: io::Error) -> CarError {
        CarError::Io(error)
    }
}

impl From<CarRefused> for CarError {
    fn from(refused: CarRefused) -> CarError {
        CarError::Refused(refused)
    }
}

/// The sections of a CAR file (version 1 or 2) that a reader gives, one after the
/// other. At most one is in memory, beside the copy that is given and a piece of 64 KB, and no memory
/// is reserved from a length that the file announces. A refusal comes once, and nothing after it;
/// after an error of the reader the next call goes on.
#[derive(Debug)]
pub struct CarReader<R> {
    reader: BufReader<R>,
    bytes: Vec<u8>, // of which those from `at` on are left
    at: usize,
    place: u64, // of those
    walk: Walk,
    roots: Links,
    is_whole: bool,
    is_over: bool,
}

impl<R: Read> CarReader<R> {
    /// The file, after its header.
    pub fn new(reader: R) -> Result<Self, CarError> {
        let mut car = CarReader {
            reader: BufReader::with_capacity(PIECE, reader),
            bytes: Vec::new(),
            at: 0,
            place: 0,
            walk: Walk::default(),
            roots: Links(Vec::new()),
            is_whole: false,
            is_over: false,
        };
        let block = car.next_part()?.header();
        car.roots = links(&car.bytes[car.at..][block]).expect("a header is a block");
        Ok(car)
    }

    /// The roots.
    pub fn roots(&self) -> Cids<'_> {
        self.roots.iter()
    }

    /// The offset in the file of the next section.
    pub fn place(&self) -> u64 {
        self.walk.place
    }

    /// Reads a piece.
    fn fill(&mut self) -> io::Result<()> {
        self.bytes.drain(..self.at);
        self.at = 0;
        if !has_more(&mut self.reader)? {
            self.is_whole = true;
            return Ok(());
        }
        let piece = self.reader.fill_buf()?;
        self.bytes.extend_from_slice(piece);
        let count = piece.len();
        self.reader.consume(count);
        Ok(())
    }

    /// Passes what is read before the place of the walk. Returns true if that is reached, or
    /// if the file ends before it.
    fn pass(&mut self) -> bool {
        let left = (self.bytes.len() - self.at) as u64;
        let count = left.min(self.walk.place - self.place);
        self.at += count as usize;
        self.place += count;
        self.is_whole || self.place == self.walk.place
    }

    /// The next part, whose places are counted from the bytes that are left.
    fn next_part(&mut self) -> Result<Part, CarError> {
        loop {
            while !self.pass() {
                self.fill()?;
            }
            match self.walk.next(&self.bytes[self.at..], self.is_whole)? {
                Part::More if self.walk.place == self.place => self.fill()?,
                Part::More => {}
                part => return Ok(part),
            }
        }
    }
}

impl<R: Read> Iterator for CarReader<R> {
    type Item = Result<Section<Vec<u8>>, CarError>;

    fn next(&mut self) -> Option<Self::Item> {
        if self.is_over {
            return None;
        }
        match self.next_part() {
            Ok(Part::Section(it)) => {
                let bytes = &self.bytes[self.at..];
                Some(Ok(it.map(|block| bytes[block].to_vec())))
            }
            Ok(_) => None,
            Err(error) => {
                self.is_over = matches!(error, CarError::Refused(_));
                Some(Err(error))
            }
        }
    }
}

/// Returns true if bytes follow. It reads if none are at hand.
pub(crate) fn has_more(reader: &mut impl BufRead) -> io::Result<bool> {
    loop {
        match reader.fill_buf() {
            Err(error) if error.kind() == ErrorKind::Interrupted => {}
            piece => return Ok(!piece?.is_empty()),
        }
    }
}

/// A writer that is asked for nothing after an error: a part of what it got may be written.
#[derive(Debug)]
pub(crate) struct Whole<W> {
    pub(crate) writer: W,
    failed: Option<ErrorKind>,
}

impl<W> Whole<W> {
    pub(crate) fn new(writer: W) -> Self {
        let failed = None;
        Whole { writer, failed }
    }

    fn ask<T>(&mut self, ask: impl FnOnce(&mut W) -> io::Result<T>) -> io::Result<T> {
        if let Some(kind) = self.failed {
            return Err(kind.into());
        }
        let answer = ask(&mut self.writer);
        self.failed = answer.as_ref().err().map(io::Error::kind);
        answer
    }
}

impl<W: Write> Write for Whole<W> {
    fn write(&mut self, bytes: &[u8]) -> io::Result<usize> {
        self.writer.write(bytes)
    }

    fn write_all(&mut self, bytes: &[u8]) -> io::Result<()> {
        self.ask(|it| it.write_all(bytes))
    }

    fn flush(&mut self) -> io::Result<()> {
        self.ask(|it| it.flush())
    }
}

/// Writes a CAR file of version 1.
///
/// ```
/// use dagcbor::{name, Car, CarWriter, Kind, Verdict};
///
/// let mut file = Vec::new();
/// let mut car = CarWriter::new(&mut file, &[name(b"\x05")])?;
/// assert_eq!(car.write(&name(b"\x05"), b"\x05")?, Verdict::Ok(Kind::Integer));
/// assert!(car.write(&name(b"\x05"), b"\x06").is_err());
/// assert_eq!(Car::new(&file)?.count(), 1);
/// # Ok::<(), Box<dyn std::error::Error>>(())
/// ```
#[derive(Debug)]
pub struct CarWriter<W> {
    writer: Whole<W>,
    section: Vec<u8>,
}

impl<W: Write> CarWriter<W> {
    /// Writes the header.
    pub fn new(writer: W, roots: &[Cid]) -> io::Result<Self> {
        let mut items = vec![Item::Map(2), Item::Text("roots")];
        items.push(Item::List(roots.len() as u64));
        items.extend(roots.iter().copied().map(Item::Link));
        items.extend([Item::Text("version"), Item::Integer(1)]);
        let header = spell(&items).map_err(|it| io::Error::new(ErrorKind::InvalidInput, it))?;
        let (mut writer, mut section) = (Whole::new(writer), Vec::new());
        put_length_and(&mut section, &[&header]);
        writer.write_all(&section)?;
        Ok(CarWriter { writer, section })
    }

    /// Writes a block under its name, and returns its verdict. Bytes that are not
    /// those of the CID are refused. After an error of the writer, a part of the
    /// section may be written, so the file is of no more use: each later call
    /// returns an error of that kind, and writes nothing.
    pub fn write(&mut self, cid: &Cid, block: &[u8]) -> Result<Verdict, CarError> {
        let verdict = verify(cid, block);
        if verdict == Verdict::OtherBytes {
            return Err(CarError::OtherBytes);
        }
        put_length_and(&mut self.section, &[cid.as_bytes(), block]);
        self.writer.write_all(&self.section)?;
        Ok(verdict)
    }

    /// Flushes the writer, and returns it.
    pub fn finish(mut self) -> io::Result<W> {
        self.writer.flush()?;
        Ok(self.into_inner())
    }

    /// The writer, with all handed over to it, and not flushed.
    pub fn into_inner(self) -> W {
        self.writer.writer
    }
}

/// Makes it the parts, with their length in front.
fn put_length_and(section: &mut Vec<u8>, parts: &[&[u8]]) {
    let mut room = [0; 10];
    let length: usize = parts.iter().map(|it| it.len()).sum();
    let count = put_varint(length as u64, &mut room);
    section.clear();
    section.extend_from_slice(&room[..count]);
    parts.iter().for_each(|it| section.extend_from_slice(it));
}
