//! Room that is lent, and what is told where it is too small.

use dagcbor::{check, links_into, name, spell_into, tape_into, Cid, Item, Kind, Refusal, Token};

const BLOCK: &[u8] = b"\x82\xd8\x2a\x45\0\x01\x55\0\0\x61a";

#[test]
fn nothing_is_no_block() {
    assert_eq!(check(&[]), Err(Refusal::Eof.at(0)));
    assert_eq!(tape_into(&[], &mut []).unwrap_err(), Refusal::Eof);
    assert_eq!(links_into(&[], &mut []).unwrap_err(), Refusal::Eof);
    assert_eq!(spell_into(&[], &[], &mut []).unwrap_err(), Refusal::Eof);
    assert_eq!(name(&[]).as_bytes()[..4], [1, 0x71, 0x12, 0x20]);
}

#[test]
fn room_is_asked_for() {
    let mut tokens = [Token::default(); 4];
    assert_eq!(
        tape_into(BLOCK, &mut tokens[..2]).unwrap_err(),
        Refusal::NoRoom { needed: 3 }
    );
    assert_eq!(tokens, [Token::default(); 4]);
    let items = tape_into(BLOCK, &mut tokens).unwrap();
    assert_eq!((items.len(), items.tokens().len()), (3, 3));
    let cid = Cid::try_from(&b"\x01\x55\0\0"[..]).unwrap();
    assert!(items.eq([Item::List(2), Item::Link(cid), Item::Text("a")]));

    let mut out = [0xee; 16];
    assert_eq!(
        links_into(BLOCK, &mut out[..4]).unwrap_err(),
        Refusal::NoRoom { needed: 5 }
    );
    assert_eq!(out, [0xee; 16]);
    assert!(links_into(BLOCK, &mut out).unwrap().eq([cid]));

    let mut out = [0xee; 16];
    let needed = BLOCK.len();
    assert_eq!(
        spell_into(BLOCK, &tokens[..3], &mut out[..needed - 1]).unwrap_err(),
        Refusal::NoRoom { needed }
    );
    assert_eq!(out, [0xee; 16]);
    assert_eq!(spell_into(BLOCK, &tokens[..3], &mut out), Ok(BLOCK));
    assert_eq!(out[needed..], [0xee; 5]);
}

#[test]
fn tapes_are_judged() {
    let mut out = [0; 64];
    let mut spell = |tokens: &[Token]| spell_into(b"ab\xff", tokens, &mut out).map(<[u8]>::to_vec);
    let token = |kind, number, place| Token {
        kind,
        number,
        place,
    };
    assert_eq!(spell(&[token(9, 0, 0)]), Err(Refusal::NoToken));
    assert_eq!(spell(&[token(1, 2, 0)]), Err(Refusal::NoToken));
    assert_eq!(spell(&[token(3, 2, 2)]), Err(Refusal::NoToken));
    assert_eq!(
        spell(&[token(3, u64::MAX, u64::MAX)]),
        Err(Refusal::NoToken)
    );
    assert_eq!(spell(&[token(3, 1, 2)]), Err(Refusal::RequireUtf8));
    assert_eq!(spell(&[token(7, 2, 0)]), Err(Refusal::Msg));
    assert_eq!(spell(&[token(5, 1, 0)]), Err(Refusal::Eof));
    assert_eq!(
        spell(&[token(0, 0, 0), token(0, 0, 0)]),
        Err(Refusal::TrailingData)
    );
    let twice = [
        token(6, 2, 0),
        token(3, 1, 0),
        token(0, 0, 0),
        token(3, 1, 0),
        token(0, 0, 0),
    ];
    assert_eq!(spell(&twice), Err(Refusal::UnorderedKey));
    assert_eq!(
        spell(&[token(8, u64::MAX, 0)]).unwrap(),
        b"\x3b\xff\xff\xff\xff\xff\xff\xff\xff"
    );
}

#[test]
fn a_cid_is_one() {
    assert_eq!(name(b"\xf6").as_bytes().len(), 36);
    for bytes in [&b""[..], b"\x01", &[0; 36], &[1; 300]] {
        assert_eq!(Cid::try_from(bytes), Err(Refusal::InvalidCid));
    }
    let cid = Cid::try_from(&b"\x01\x55\0\0"[..]).unwrap();
    assert_eq!(format!("{cid:?}"), "Cid(bafkqaaa)");
    assert_eq!(check(b"\xd8\x2a\x45\0\x01\x55\0\0"), Ok(Kind::Link));
}
