//! CAR files, over the vectors of all callers: in memory, and by readers that give few bytes.

use dagcbor::{
    name, Car, CarError, CarReader, CarRefusal, CarRefused, CarWriter, Cid, Kind, Refusal, Verdict,
};
use std::io::{self, BufWriter, ErrorKind, Read, Write};

fn hex(bytes: &[u8]) -> String {
    bytes.iter().map(|it| format!("{it:02x}")).collect()
}

fn from_hex(text: &str) -> Vec<u8> {
    let digit = |it: char| it.to_digit(16).map(|it| it as u8);
    let digits: Vec<u8> = text.chars().filter_map(digit).collect();
    digits.chunks(2).map(|it| it[0] * 16 + it[1]).collect()
}

/// The number of a verdict, of those that the table has.
fn number_of(verdict: Verdict) -> i32 {
    match verdict {
        Verdict::Ok(kind) => kind as i32,
        Verdict::NotRead => 9,
        Verdict::OtherBytes => -22,
        Verdict::NotVerified => -23,
        Verdict::Refused(Refusal::Eof) => -3,
        Verdict::Refused(Refusal::Unsupported) => -5,
        Verdict::Refused(Refusal::TrailingData) => -14,
        Verdict::Refused(Refusal::UnorderedKey) => -17,
        Verdict::Refused(refusal) => panic!("{refusal}"),
    }
}

fn fault_of(refused: CarRefused) -> String {
    let number = match refused.refusal {
        CarRefusal::Truncated => -24,
        CarRefusal::InvalidLength => -25,
        CarRefusal::InvalidCid => -26,
        CarRefusal::OtherHeader => -27,
        CarRefusal::InvalidOffset => -35,
        refusal => panic!("{refusal}"),
    };
    format!("{number}:{}", refused.place)
}

fn joined(parts: Vec<String>) -> String {
    if parts.is_empty() {
        "-".into()
    } else {
        parts.join(",")
    }
}

/// The roots, the sections and the fault, as a row tells them.
#[derive(Default)]
struct Told(Vec<String>, Vec<String>, Option<String>);

impl Told {
    fn section(&mut self, cid: Cid, block: &[u8], verdict: Verdict) {
        let name = hex(cid.as_bytes());
        let number = number_of(verdict);
        self.1.push(format!("{name}:{}:{number}", block.len()));
        assert_eq!(verdict.is_verified(), number > -22);
    }

    fn row(self) -> [String; 3] {
        let fault = self.2.unwrap_or_else(|| "-".into());
        [joined(self.0), joined(self.1), fault]
    }
}

fn in_memory(file: &[u8]) -> [String; 3] {
    let mut told = Told::default();
    let mut car = match Car::new(file) {
        Ok(car) => car,
        Err(refused) => {
            told.2 = Some(fault_of(refused));
            return told.row();
        }
    };
    told.0 = car.roots().iter().map(|it| hex(it.as_bytes())).collect();
    let mut room = vec![0; file.len()];
    let lent = car.roots_into(&mut room).unwrap();
    assert!(lent.map(|it| hex(it.as_bytes())).eq(told.0.iter().cloned()));
    for section in &mut car {
        match section {
            Ok(it) => told.section(it.cid, it.block, it.verdict),
            Err(refused) => told.2 = Some(fault_of(refused)),
        }
    }
    assert!(car.next().is_none());
    told.row()
}

/// Gives this many bytes at once, and now and then is interrupted.
struct Dripping<'a>(&'a [u8], usize, usize);

impl Read for Dripping<'_> {
    fn read(&mut self, out: &mut [u8]) -> io::Result<usize> {
        self.2 += 1;
        if self.2 % 3 == 0 {
            return Err(ErrorKind::Interrupted.into());
        }
        let most = self.1.min(out.len());
        self.0.read(&mut out[..most])
    }
}

fn refused(error: CarError) -> CarRefused {
    match error {
        CarError::Refused(refused) => refused,
        error => panic!("{error}"),
    }
}

fn read(reader: impl Read) -> [String; 3] {
    let mut told = Told::default();
    let mut car = match CarReader::new(reader) {
        Ok(car) => car,
        Err(error) => {
            told.2 = Some(fault_of(refused(error)));
            return told.row();
        }
    };
    told.0 = car.roots().map(|it| hex(it.as_bytes())).collect();
    for section in &mut car {
        match section {
            Ok(it) => told.section(it.cid, &it.block, it.verdict),
            Err(error) => told.2 = Some(fault_of(refused(error))),
        }
    }
    assert!(car.next().is_none());
    told.row()
}

#[test]
fn the_table_holds() {
    let mut count = 0;
    for line in include_str!("../../tables/files.txt").lines() {
        let row: Vec<&str> = line.split(' ').collect();
        let file = from_hex(row[0]);
        assert_eq!(in_memory(&file), row[1..4], "{line}");
        assert_eq!(read(&file[..]), row[1..4], "{line}");
        for most in [1, 2, 7, 50] {
            assert_eq!(read(Dripping(&file, most, 0)), row[1..4], "{line}");
        }
        count += 1;
    }
    assert!(count > 40);
}

const HEADER: &[u8] = b"\x11\xa2\x65roots\x80\x67version\x01";

fn section(block: &[u8]) -> Vec<u8> {
    let mut length = 36 + block.len();
    let mut section = Vec::new();
    while length >= 128 {
        section.push((length % 128 + 128) as u8);
        length /= 128;
    }
    section.push(length as u8);
    section.extend(name(block).as_bytes());
    section.extend(block);
    section
}

#[test]
fn sections_of_each_size() {
    let sizes = [0, 1, 90, 91, 92, 60_000, 65_535, 65_536, 70_000, 1_000_000];
    let mut file = HEADER.to_vec();
    for size in sizes {
        file.extend(section(&vec![0xf6; size]));
    }
    let told = |length: usize| match length {
        0 => Verdict::Refused(Refusal::Eof),
        1 => Verdict::Ok(Kind::Null),
        _ => Verdict::Refused(Refusal::TrailingData),
    };
    for reader in [65_536, 65_537, 1_000, 1 << 30].map(|most| Dripping(&file, most, 0)) {
        let mut found = CarReader::new(reader).unwrap();
        for size in sizes {
            let it = found.next().unwrap().unwrap();
            assert_eq!(
                (it.verdict, &it.block[..]),
                (told(size), &vec![0xf6; size][..])
            );
        }
        assert!(found.next().is_none());
        assert_eq!(found.place(), file.len() as u64);
    }
}

/// Fails once, where its bytes end.
struct Failing<'a>(&'a [u8], bool);

impl Read for Failing<'_> {
    fn read(&mut self, out: &mut [u8]) -> io::Result<usize> {
        if self.0.is_empty() && std::mem::take(&mut self.1) {
            return Err(ErrorKind::TimedOut.into());
        }
        self.0.read(out)
    }
}

#[test]
fn a_reader_that_fails() {
    let mut file = HEADER.to_vec();
    file.extend(section(b"\x05"));
    for cut in [1, 18, 19, 40, file.len()] {
        let reader = Failing(&file[..cut], true).chain(&file[cut..]);
        let mut car = CarReader::new(reader);
        if cut < 18 {
            assert!(matches!(car, Err(CarError::Io(_))));
            continue;
        }
        let found = car.as_mut().unwrap();
        let mut kinds: Vec<_> = found.map(|it| it.map(|it| it.verdict)).collect();
        kinds.retain(|it| !matches!(it, Err(CarError::Io(it)) if it.kind() == ErrorKind::TimedOut));
        assert!(matches!(kinds[..], [Ok(Verdict::Ok(Kind::Integer))]));
    }
}

#[test]
fn announced_lengths_reserve_nothing() {
    for length in [1u64 << 40, 1 << 62, u64::MAX] {
        let mut file = HEADER.to_vec();
        let mut left = length;
        while left >= 128 {
            file.push((left % 128 + 128) as u8);
            left /= 128;
        }
        file.push(left as u8);
        let wanted = CarRefused {
            refusal: CarRefusal::Truncated,
            place: 18,
        };
        assert_eq!(Car::new(&file).unwrap().next(), Some(Err(wanted)));
        let found = CarReader::new(&file[..]).unwrap().next().unwrap();
        assert_eq!(refused(found.unwrap_err()), wanted);
        assert_eq!(wanted.to_string(), "the file is cut short, at 18");
    }
}

#[test]
fn headers_that_are_none() {
    let rows: [(&[u8], CarRefusal); 3] = [
        (b"\0", CarRefusal::NoBlock(Refusal::Eof)),
        (b"\x02\x18\x17", CarRefusal::NoBlock(Refusal::NonMinimal)),
        (b"\x01\x80", CarRefusal::OtherHeader),
    ];
    for (file, refusal) in rows {
        let wanted = CarRefused { refusal, place: 0 };
        assert_eq!(Car::new(file).unwrap_err(), wanted);
        assert_eq!(refused(CarReader::new(file).unwrap_err()), wanted);
    }
}

/// Takes so many bytes, and then fails once.
#[derive(Debug)]
struct Full(Vec<u8>, usize);

impl Write for Full {
    fn write(&mut self, bytes: &[u8]) -> io::Result<usize> {
        if self.1 == 0 {
            self.1 = usize::MAX;
            return Err(ErrorKind::TimedOut.into());
        }
        let count = bytes.len().min(self.1);
        self.1 -= count;
        self.0.write(&bytes[..count])
    }

    fn flush(&mut self) -> io::Result<()> {
        Ok(())
    }
}

/// A section after a part of one would be read as the rest of it.
#[test]
fn no_section_comes_after_a_part_of_one() {
    let cid = name(b"\x05");
    let mut car = CarWriter::new(Full(vec![], 30), &[]).unwrap();
    for _ in 0..2 {
        let error = car.write(&cid, b"\x05").unwrap_err();
        assert!(matches!(error, CarError::Io(it) if it.kind() == ErrorKind::TimedOut));
    }
    let other = car.write(&cid, b"\x06").unwrap_err();
    assert!(matches!(other, CarError::OtherBytes));
    assert_eq!(car.finish().unwrap_err().kind(), ErrorKind::TimedOut);

    let mut car = CarWriter::new(Full(vec![], 30), &[]).unwrap();
    assert!(car.write(&cid, b"\x05").is_err());
    assert_eq!(car.into_inner().0.len(), 30);
}

#[test]
fn a_file_is_flushed_at_its_end() {
    let mut car = CarWriter::new(BufWriter::new(Full(vec![], 30)), &[]).unwrap();
    car.write(&name(b"\x05"), b"\x05").unwrap();
    assert_eq!(car.finish().unwrap_err().kind(), ErrorKind::TimedOut);
    let mut car = CarWriter::new(BufWriter::new(vec![]), &[]).unwrap();
    car.write(&name(b"\x05"), b"\x05").unwrap();
    let file = [HEADER, &section(b"\x05")].concat();
    assert_eq!(car.finish().unwrap().get_ref(), &file);
}
