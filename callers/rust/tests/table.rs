//! The answers over the vectors of all callers, and over random blocks.

use dagcbor::{check, links, name, spell, take_tape, tape, Cid, Item, Kind, Refusal, Token};
use std::time::{Duration, Instant, SystemTime};

const KINDS: [Kind; 8] = [
    Kind::Null,
    Kind::Bool,
    Kind::Integer,
    Kind::String,
    Kind::Bytes,
    Kind::List,
    Kind::Map,
    Kind::Link,
];

fn answer_of(code: &str) -> Result<Kind, Refusal> {
    match code.parse::<i32>().unwrap() {
        -1 => Err(Refusal::Msg),
        -3 => Err(Refusal::Eof),
        -4 => Err(Refusal::Mismatch),
        -5 => Err(Refusal::Unsupported),
        -8 => Err(Refusal::RequireUtf8),
        -12 => Err(Refusal::DepthOverflow),
        -14 => Err(Refusal::TrailingData),
        -15 => Err(Refusal::IndefiniteSize),
        -16 => Err(Refusal::NonMinimal),
        -17 => Err(Refusal::UnorderedKey),
        -26 => Err(Refusal::InvalidCid),
        -28 => Err(Refusal::UnknownBase),
        -29 => Err(Refusal::TooLong),
        -30 => Err(Refusal::InvalidCharacter),
        -31 => Err(Refusal::InvalidLength),
        -32 => Err(Refusal::TrailingBits),
        -33 => Err(Refusal::LeadingZero),
        -34 => Err(Refusal::InvalidVersion),
        kind => Ok(KINDS[kind as usize]),
    }
}

fn from_hex(text: &str) -> Vec<u8> {
    let digits: Vec<u8> = text
        .chars()
        .filter_map(|it| it.to_digit(16))
        .map(|it| it as u8)
        .collect();
    digits.chunks(2).map(|it| it[0] * 16 + it[1]).collect()
}

fn from_words(text: &str) -> Token {
    let words: Vec<u64> = text.split(':').map(|it| it.parse().unwrap()).collect();
    Token {
        kind: words[0],
        number: words[1],
        place: words[2],
    }
}

fn parts<T>(text: &str, read: impl Fn(&str) -> T) -> Vec<T> {
    text.split(',').filter(|it| *it != "-").map(read).collect()
}

fn hold_row(row: &[&str]) {
    let block = from_hex(row[0]);
    let place = row[6].parse().unwrap_or(0);
    assert_eq!(check(&block), answer_of(row[1]).map_err(|it| it.at(place)));
    match answer_of(row[1]) {
        Err(refusal) => assert_eq!(tape(&block).unwrap_err(), refusal.at(place)),
        Ok(_) => {
            let tape = tape(&block).unwrap();
            assert_eq!(tape.items().tokens(), parts(row[5], from_words));
            assert_eq!(spell(&tape.items().collect::<Vec<_>>()).unwrap(), block);
        }
    }
    match answer_of(row[2]) {
        Err(refusal) => assert_eq!(links(&block).unwrap_err(), refusal),
        Ok(_) => {
            let (links, wanted) = (links(&block).unwrap(), parts(row[3], from_hex));
            assert!(links.iter().map(|it| it.as_bytes().to_vec()).eq(wanted));
            assert!(links
                .iter()
                .all(|it| Cid::try_from(it.as_bytes()) == Ok(it)));
            let (first, rest) = take_tape(&block).unwrap();
            let item = &block[..block.len() - rest.len()];
            assert_eq!(tape(item).unwrap().items().tokens(), first.items().tokens());
        }
    }
    assert_eq!(name(&block).as_bytes(), from_hex(row[4]));
}

fn rows_of(table: &str) -> Vec<Vec<&str>> {
    let rows: Vec<Vec<&str>> = table.lines().map(|it| it.split(' ').collect()).collect();
    assert!(rows.len() > 30);
    rows
}

#[test]
fn texts_of_cids_hold() {
    for row in rows_of(include_str!("../../tables/texts.txt")) {
        let text = if row[0] == "-" { "" } else { row[0] };
        match answer_of(row[1]) {
            Err(refusal) => assert_eq!(text.parse::<Cid>(), Err(refusal)),
            Ok(_) => {
                let cid: Cid = text.parse().unwrap();
                assert_eq!(cid.as_bytes(), from_hex(row[2]));
                assert_eq!(cid.to_string(), row[3]);
                assert!(Cid::try_from(&cid.as_bytes()[1..]).is_err());
            }
        }
    }
}

/// On several threads at once, which needs no lock.
#[test]
fn the_table_holds() {
    let rows = rows_of(include_str!("../../tables/table.txt"));
    std::thread::scope(|scope| {
        for _ in 0..4 {
            scope.spawn(|| rows.iter().for_each(|it| hold_row(it)));
        }
    });
}

/// Data, and its spelling by a writer of its own.
enum Data {
    Plain(Item<'static>),
    Text(String),
    Bytes(Vec<u8>),
    Link(Vec<u8>),
    List(Vec<Data>),
    Map(Vec<(String, Data)>),
}

fn head(major: u8, n: u64, out: &mut Vec<u8>) {
    let (info, width) = match n {
        0..=23 => (n as u8, 0),
        24..=0xff => (24, 1),
        0x100..=0xffff => (25, 2),
        0x1_0000..=0xffff_ffff => (26, 4),
        _ => (27, 8),
    };
    out.push(32 * major + info);
    out.extend_from_slice(&n.to_be_bytes()[8 - width..]);
}

fn with_head(major: u8, bytes: &[u8], out: &mut Vec<u8>) {
    head(major, bytes.len() as u64, out);
    out.extend_from_slice(bytes);
}

impl Data {
    fn spell(&self, out: &mut Vec<u8>) {
        match self {
            Data::Plain(Item::Integer(n)) => head(0, *n, out),
            Data::Plain(Item::Negative(n)) => head(1, *n, out),
            Data::Plain(Item::Bool(value)) => out.push(0xf4 + *value as u8),
            Data::Plain(_) => out.push(0xf6),
            Data::Text(text) => with_head(3, text.as_bytes(), out),
            Data::Bytes(bytes) => with_head(2, bytes, out),
            Data::Link(cid) => {
                out.extend_from_slice(&[0xd8, 0x2a]);
                with_head(2, &[&[0], cid.as_slice()].concat(), out);
            }
            Data::List(items) => {
                head(4, items.len() as u64, out);
                items.iter().for_each(|it| it.spell(out));
            }
            Data::Map(entries) => {
                head(5, entries.len() as u64, out);
                for (key, it) in entries {
                    with_head(3, key.as_bytes(), out);
                    it.spell(out);
                }
            }
        }
    }

    fn items<'a>(&'a self, out: &mut Vec<Item<'a>>) {
        match self {
            Data::Plain(it) => out.push(*it),
            Data::Text(text) => out.push(Item::Text(text)),
            Data::Bytes(bytes) => out.push(Item::Bytes(bytes)),
            Data::Link(cid) => out.push(Item::Link(Cid::try_from(&cid[..]).unwrap())),
            Data::List(items) => {
                out.push(Item::List(items.len() as u64));
                items.iter().for_each(|it| it.items(out));
            }
            Data::Map(entries) => {
                out.push(Item::Map(entries.len() as u64));
                for (key, it) in entries {
                    out.push(Item::Text(key));
                    it.items(out);
                }
            }
        }
    }
}

/// xorshift64
struct Random(u64);

impl Random {
    fn below(&mut self, n: u64) -> u64 {
        self.0 ^= self.0 << 13;
        self.0 ^= self.0 >> 7;
        self.0 ^= self.0 << 17;
        self.0 % n
    }

    fn number(&mut self) -> u64 {
        self.below(u64::MAX) >> self.below(64)
    }

    fn bytes(&mut self) -> Vec<u8> {
        let count = [0, 1, 5, 23, 24, 300][self.below(6) as usize];
        (0..count).map(|_| self.below(256) as u8).collect()
    }

    fn text(&mut self) -> String {
        let count = self.below(30);
        (0..count)
            .map(|_| ['a', 'b', '\0', 'é', '水', '𐅑'][self.below(6) as usize])
            .collect()
    }

    fn cid(&mut self) -> Vec<u8> {
        let digest: Vec<u8> = (0..self.below(65)).map(|_| self.below(256) as u8).collect();
        [&[1, 0x71, 0x12, digest.len() as u8], digest.as_slice()].concat()
    }

    fn data(&mut self, levels: u64) -> Data {
        match self.below(if levels > 0 { 9 } else { 7 }) {
            0 => Data::Plain(Item::Null),
            1 => Data::Plain(Item::Bool(self.below(2) == 1)),
            2 => Data::Plain(Item::Integer(self.number())),
            3 => Data::Plain(Item::Negative(self.number())),
            4 => Data::Text(self.text()),
            5 => Data::Bytes(self.bytes()),
            6 => Data::Link(self.cid()),
            7 => Data::List((0..self.below(6)).map(|_| self.data(levels - 1)).collect()),
            _ => {
                let mut keys: Vec<String> = (0..self.below(6)).map(|_| self.text()).collect();
                keys.sort_by(|a, b| (a.len(), a).cmp(&(b.len(), b)));
                keys.dedup();
                Data::Map(
                    keys.into_iter()
                        .map(|key| (key, self.data(levels - 1)))
                        .collect(),
                )
            }
        }
    }
}

#[test]
fn random_blocks_go_both_ways() {
    let seed = SystemTime::now()
        .duration_since(SystemTime::UNIX_EPOCH)
        .unwrap()
        .as_nanos() as u64
        | 1;
    println!("seed {seed}");
    let (mut random, start, mut rounds) = (Random(seed), Instant::now(), 0);
    // At least this many, however slow the machine is.
    while start.elapsed() < Duration::from_secs(2) || rounds <= 100 {
        let data = random.data(5);
        let (mut block, mut items) = (Vec::new(), Vec::new());
        data.spell(&mut block);
        data.items(&mut items);
        assert!(tape(&block).unwrap().items().eq(items.iter().copied()));
        assert_eq!(spell(&items).unwrap(), block);
        let linked = items.iter().filter_map(|it| {
            if let Item::Link(cid) = it {
                Some(*cid)
            } else {
                None
            }
        });
        assert!(links(&block).unwrap().iter().eq(linked));
        let at = random.below(block.len() as u64) as usize;
        block[at] ^= 1 << random.below(8);
        match tape(&block) {
            Err(refusal) => assert_eq!(check(&block), Err(refusal)),
            Ok(tape) => assert_eq!(spell(&tape.items().collect::<Vec<_>>()).unwrap(), block),
        }
        rounds += 1;
    }
}
